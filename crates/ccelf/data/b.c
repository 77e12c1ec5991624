int f(void) { putbyte(65); return 0; }
