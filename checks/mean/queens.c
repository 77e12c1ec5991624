void line(int n);
static int columns[8]; static int up[16]; static int down[16];
int place(int row) {
    int column; int all; int more;
    if (row == 6) { return 1; }
    all = 0;
    for (column = 0; column < 6; column = column + 1) {
        if (columns[column] || up[row + column] || down[row - column + 8]) { continue; }
        columns[column] = 1; up[row + column] = 1; down[row - column + 8] = 1;
        more = place(row + 1);
        all = all + more;
        columns[column] = 0; up[row + column] = 0; down[row - column + 8] = 0;
    }
    return all;
}
int main(void) { int n; n = place(0); line(n); return n; }
