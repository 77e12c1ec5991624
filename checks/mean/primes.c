void line(int n);
unsigned char crossed[300];
int main(void) {
    int i; int j; int found;
    found = 0;
    for (i = 2; i < 300; i = i + 1) {
        if (crossed[i]) { continue; }
        line(i);
        found = found + 1;
        for (j = i * i; j < 300; j = j + i) { crossed[j] = 1; }
    }
    return found;
}
