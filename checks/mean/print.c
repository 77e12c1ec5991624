/* Numbers as text, for the other units. */
static char digits[12];
static int count = 0;

void print(int n) {
    register unsigned rest;
    count = 0;
    rest = n;
    if (n < 0) { putbyte('-'); rest = 0u - rest; }
    do { digits[count] = '0' + rest % 10u; count = count + 1; rest = rest / 10u; } while (rest != 0u);
    while (count > 0) { count = count - 1; putbyte(digits[count]); }
}

void line(int n) { print(n); putbyte('\n'); }
