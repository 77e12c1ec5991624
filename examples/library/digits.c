int zero(void)
{
    putbyte(48);
    return 0;
}

int one(void)
{
    putbyte(49);
    return 0;
}

int two(void)
{
    putbyte(50);
    return 0;
}

int three(void)
{
    putbyte(51);
    return 0;
}

int four(void)
{
    putbyte(52);
    return 0;
}

int five(void)
{
    putbyte(53);
    return 0;
}

int six(void)
{
    putbyte(54);
    return 0;
}

int seven(void)
{
    putbyte(55);
    return 0;
}

int eight(void)
{
    putbyte(56);
    return 0;
}

int nine(void)
{
    putbyte(57);
    return 0;
}
