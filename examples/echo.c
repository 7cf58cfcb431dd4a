# 1 "echo.c"
int read(int fd, char *buf, unsigned n);
int write(int fd, const char *buf, unsigned n);
int open(const char *path, int flags, unsigned mode);
int dup2(int from, int to);
int close(int fd);
int getpid(void);
int fork(void);
void _exit(int status);
enum { LINE = 8, OPS = 2 };
struct session { int fd; int lines; char buf[LINE]; };
static struct session s;
static int op_echo(struct session *p, int n)
{
    return write(p->fd, p->buf, (unsigned) n);
}
static int op_pid(struct session *p, int n)
{
    char d;
    d = '0' + getpid() % 10;
    return n > 0 ? write(p->fd, &d, 1) : 0;
}
static int (*const ops[OPS])(struct session *, int) = { op_echo, op_pid };
static int serve(struct session *p)
{
    int n;
    while ((n = read(p->fd, p->buf, sizeof p->buf)) > 0) {
        p->lines++;
        switch (p->buf[0]) {
        case 'q':
            return p->lines;
        case 'p':
            ops[1](p, n);
            break;
        default:
            ops[0](p, n);
        }
    }
    return n;
}
int main(void)
{
    int child;
    s.fd = open("/dev/ttyS0", 2, 0);
    if (s.fd < 0 || dup2(s.fd, 2) < 0)
        return 1;
    child = fork();
    if (child == 0)
        _exit(serve(&s));
    close(s.fd);
    return 0;
}
