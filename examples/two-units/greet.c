static int end(void)
{
    putbyte(33);
    return 0;
}

int greet(void)
{
    putbyte(72);
    putbyte(105);
    end();
    return 0;
}
