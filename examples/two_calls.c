int getpid(void);
int g(int x) { return x; }
int f(int x) { getpid(); return x; }
int main(void) { return f(g(1)) + f(2); }
