int main(void)
{
    putbyte(72);
    putbyte(101);
    putbyte(108);
    putbyte(108);
    putbyte(111);
    putbyte(44);
    putbyte(32);
    putbyte(119);
    putbyte(111);
    putbyte(114);
    putbyte(108);
    putbyte(100);
    putbyte(33);
    putbyte(10);
    return 0;
}
