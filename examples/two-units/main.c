int greet(void);

static int end(void)
{
    putbyte(10);
    return 0;
}

int main(void)
{
    greet();
    greet();
    end();
    return 3;
}
