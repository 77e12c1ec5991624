int one(void);
int two(void);
int three(void);
int line(void);

int main(void)
{
    three();
    two();
    one();
    line();
    return 0;
}
