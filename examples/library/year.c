int two(void);
int zero(void);
int six(void);
int line(void);

int main(void)
{
    two();
    zero();
    two();
    six();
    line();
    return 6;
}
