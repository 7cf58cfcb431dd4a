# 1 "each_call.c"
int read(int fd, char *buf, unsigned n);
int write(int fd, const char *buf, unsigned n);
int open(const char *path, int flags, unsigned mode);
int close(int fd);
int lseek(int fd, int offset, int from);
int dup(int fd);
int dup2(int fd, int to);
int unlink(const char *path);
int rename(const char *path, const char *to);
int mkdir(const char *path, unsigned mode);
int rmdir(const char *path);
int chdir(const char *path);
int chmod(const char *path, unsigned mode);
int kill(int pid, int signal);
int getpid(void);
int getppid(void);
unsigned getuid(void);
unsigned geteuid(void);
unsigned getgid(void);
int setuid(unsigned user);
int socket(int domain, int type, int protocol);
int listen(int fd, int backlog);
int fork(void);
void _exit(int status);
static void of_files(void)
{
    char buf[4];
    int fd;
    mkdir("d", 448);
    chdir("d");
    fd = open("a", 66, 384);
    write(fd, "h\377", 2);
    write(fd, "", 0);
    lseek(fd, -2, 2);
    read(fd, buf, 4);
    dup2(fd, 9);
    close(9);
    close(9);
    chmod("a", 256);
    rename("a", "b c");
    unlink("b c");
    chdir("..");
    rmdir("d");
    rmdir("");
    close(dup(fd));
    close(fd);
}
static void of_processes(void)
{
    int pid;
    pid = getpid();
    kill(pid, 0);
    getppid();
    geteuid();
    getgid();
    setuid(getuid());
    listen(socket(1, 1, 0), 5);
}
int main(void)
{
    of_files();
    of_processes();
    fork();
    _exit(3);
}
