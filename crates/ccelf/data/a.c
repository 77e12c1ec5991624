int f(void);
int main(void) { f(); putbyte(66); return 3; }
