int getpid(void);
unsigned getuid(void);
int f(void) { return getpid(); }
int main(void)
{
    f();
    getuid();
    f();
    return 0;
}
