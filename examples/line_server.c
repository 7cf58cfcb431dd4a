# 1 "line_server.c"
int read(int fd, char *buf, unsigned n);
int write(int fd, const char *buf, unsigned n);
int close(int fd);
int getpid(void);
int fork(void);
void _exit(int status);
enum { LINE = 80 };
struct line { int length; char text[LINE]; };
static struct line line;
static int read_line(struct line *p)
{
    p->length = 0;
    while (p->length < LINE) {
        if (read(0, p->text + p->length, 1) != 1)
            return 0;
        p->length++;
        if (p->text[p->length - 1] == '\n')
            break;
    }
    return p->length;
}
static int answer_echo(struct line *p)
{
    return write(1, p->text, (unsigned) p->length);
}
static int answer_pid(struct line *p)
{
    int i, pid;
    pid = getpid();
    i = LINE;
    p->text[--i] = '\n';
    do {
        p->text[--i] = '0' + pid % 10;
        pid /= 10;
    } while (pid);
    return write(1, p->text + i, (unsigned) (LINE - i));
}
static int (*const answers[2])(struct line *) = { answer_echo, answer_pid };
static int serve(struct line *p)
{
    int lines;
    for (lines = 0; read_line(p) > 0; lines++) {
        switch (p->text[0]) {
        case 'q':
            return lines;
        case 'p':
            answers[1](p);
            break;
        default:
            answers[0](p);
        }
    }
    return lines;
}
int main(void)
{
    if (fork() == 0)
        _exit(serve(&line));
    close(0);
    close(1);
    return 0;
}
