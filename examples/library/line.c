int line(void)
{
    putbyte(10);
    return 0;
}
