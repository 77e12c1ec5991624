/* Lines, words and bytes of the input. */
void line(int n);
static const char word_of[] = "lines words bytes";
void say(const char *text) { while (*text) { putbyte(*text); text = text + 1; } putbyte(' '); }
int main(void) {
    int c; int lines; int words; int bytes; int inside;
    lines = 0; words = 0; bytes = 0; inside = 0;
    c = getbyte();
    while (c != -1) {
        bytes = bytes + 1;
        if (c == '\n') { lines = lines + 1; }
        if (c == ' ' || c == '\n' || c == '\t') { inside = 0; }
        else if (!inside) { inside = 1; words = words + 1; }
        c = getbyte();
    }
    say(word_of);
    line(lines); line(words); line(bytes);
    return words;
}
