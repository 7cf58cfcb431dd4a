/* Records the system calls of a C program as interleaved traces, for dyckmon watch. On Linux:

       dyckmon instrument server.c > marked.c
       cc -o server marked.c recorder.c @recorder.wraps
       DYCKMON_TRACES=server.traces ./server
       echo end >> server.traces

   The linker makes each call of read in the program a call of __wrap_read here, and each __real_read here one of the
   C library (ld --wrap); recorder.wraps has its words for the 24 calls that dyckmon knows. A record is written once
   its call has returned, or before it where it is _exit, by one write that appends. Several processes may record into
   one file. None of them knows whether it is the last one, so whoever ends the recording appends the last line, and
   records into another file next. A number names one process in a recording, so one ends before the system gives
   numbers anew. Nothing is proved of this file. */
#include <errno.h>
#include <fcntl.h>
#include <signal.h>
#include <stdarg.h>
#include <stdio.h>
#include <stdlib.h>
#include <string.h>
#include <sys/file.h>
#include <sys/socket.h>
#include <sys/stat.h>
#include <unistd.h>

enum { LEAST_FILE = 200, CANNOT_RECORD = 125 };

extern __typeof__(read) __real_read;
extern __typeof__(write) __real_write;
extern __typeof__(open) __real_open;
extern __typeof__(close) __real_close;
extern __typeof__(lseek) __real_lseek;
extern __typeof__(dup) __real_dup;
extern __typeof__(dup2) __real_dup2;
extern __typeof__(unlink) __real_unlink;
extern __typeof__(rename) __real_rename;
extern __typeof__(mkdir) __real_mkdir;
extern __typeof__(rmdir) __real_rmdir;
extern __typeof__(chdir) __real_chdir;
extern __typeof__(chmod) __real_chmod;
extern __typeof__(kill) __real_kill;
extern __typeof__(getpid) __real_getpid;
extern __typeof__(getppid) __real_getppid;
extern __typeof__(getuid) __real_getuid;
extern __typeof__(geteuid) __real_geteuid;
extern __typeof__(getgid) __real_getgid;
extern __typeof__(setuid) __real_setuid;
extern __typeof__(socket) __real_socket;
extern __typeof__(listen) __real_listen;
extern __typeof__(fork) __real_fork;
extern __typeof__(_exit) __real__exit;

static int file = -1;
static char *text;
static size_t length, room;

/* What can't be recorded doesn't happen: the process ends. */
static void stop(const char *why)
{
    dprintf(2, "recorder: %s: %s\n", why, strerror(errno));
    __real__exit(CANNOT_RECORD);
}

static void put(const char *bytes, size_t count)
{
    if (room - length < count) {
        room = 2 * (length + count);
        text = realloc(text, room);
        if (!text)
            stop("no memory for a record");
    }
    memcpy(text + length, bytes, count);
    length += count;
}

static void put_number(const char *before, long long number)
{
    char digits[64];
    put(digits, (size_t) snprintf(digits, sizeof digits, "%s%lld", before, number));
}

static void put_bytes(const char *bytes, size_t count)
{
    char two[3];
    size_t i;
    put(count ? " " : " -", count ? 1 : 2);
    for (i = 0; i < count; i++) {
        snprintf(two, sizeof two, "%02x", (unsigned char) bytes[i]);
        put(two, 2);
    }
}

static void begin(void)
{
    length = 0;
    put_number("", __real_getpid());
}

static void finish(void)
{
    put("\n", 1);
    if (__real_write(file, text, length) != (ssize_t) length)
        stop("a record can't be written");
}

/* Records a call that returned. Each letter of kinds is an argument: i an int, u an unsigned int, p a path, b a buffer
   with its length behind it. */
static void record(const char *name, long long result, const char *kinds, ...)
{
    va_list arguments;
    const char *bytes;
    begin();
    put(" S ", 3);
    put(name, strlen(name));
    va_start(arguments, kinds);
    for (; *kinds; kinds++) {
        if (*kinds == 'i') {
            put_number(" ", va_arg(arguments, int));
        } else if (*kinds == 'u') {
            put_number(" ", va_arg(arguments, unsigned));
        } else {
            bytes = va_arg(arguments, const char *);
            put_bytes(bytes, *kinds == 'p' ? strlen(bytes) : va_arg(arguments, unsigned));
        }
    }
    va_end(arguments);
    put_number(" = ", result);
    finish();
}

/* Opens the file before main begins, with a number that the program hardly uses, and writes its first line where it is
   new. */
__attribute__((constructor)) static void open_traces(void)
{
    static const char first[] = "dyckmon-traces 2\n";
    const char *name = getenv("DYCKMON_TRACES");
    int opened = name ? __real_open(name, O_RDWR | O_CREAT | O_APPEND, 0600) : (errno = EINVAL, -1);
    if (opened < 0)
        stop("DYCKMON_TRACES has to name a file that can be written");
    file = fcntl(opened, F_DUPFD_CLOEXEC, LEAST_FILE);
    if (file < 0 || flock(file, LOCK_EX))
        stop("the file of the traces can't be kept open");
    __real_close(opened);
    if (__real_lseek(file, 0, SEEK_END) == 0 && __real_write(file, first, sizeof first - 1) != sizeof first - 1)
        stop("the first line can't be written");
    flock(file, LOCK_UN);
}

/* The null calls that dyckmon instrument puts round calls of functions. */

void __dyck_pre(unsigned site)
{
    begin();
    put_number(" B ", site);
    finish();
}

void __dyck_post(unsigned site)
{
    begin();
    put_number(" E ", site);
    finish();
}

/* A child has its parent's events up to the fork, so it waits until the parent has recorded that, and records none
   itself. */
int __wrap_fork(void)
{
    int gate[2], child;
    char byte;
    if (pipe(gate))
        stop("a fork can't be recorded");
    child = __real_fork();
    if (child == 0) {
        __real_close(gate[1]);
        while (__real_read(gate[0], &byte, 1) < 0 && errno == EINTR)
            ;
        __real_close(gate[0]);
        return 0;
    }
    __real_close(gate[0]);
    record("fork", child, "");
    __real_close(gate[1]);
    return child;
}

void __wrap__exit(int status)
{
    record("_exit", 0, "i", status);
    __real__exit(status);
}

int __wrap_read(int fd, char *buffer, unsigned count)
{
    int result = (int) __real_read(fd, buffer, count);
    record("read", result, "iu", fd, count);
    return result;
}

int __wrap_write(int fd, char *buffer, unsigned count)
{
    int result = (int) __real_write(fd, buffer, count);
    record("write", result, "ib", fd, buffer, count);
    return result;
}

int __wrap_open(char *path, int flags, unsigned mode)
{
    int result = __real_open(path, flags, mode);
    record("open", result, "piu", path, flags, mode);
    return result;
}

int __wrap_close(int fd)
{
    int result = __real_close(fd);
    record("close", result, "i", fd);
    return result;
}

int __wrap_lseek(int fd, int offset, int from)
{
    int result = (int) __real_lseek(fd, offset, from);
    record("lseek", result, "iii", fd, offset, from);
    return result;
}

int __wrap_dup(int fd)
{
    int result = __real_dup(fd);
    record("dup", result, "i", fd);
    return result;
}

int __wrap_dup2(int fd, int to)
{
    int result = __real_dup2(fd, to);
    record("dup2", result, "ii", fd, to);
    return result;
}

int __wrap_unlink(char *path)
{
    int result = __real_unlink(path);
    record("unlink", result, "p", path);
    return result;
}

int __wrap_rename(char *path, char *to)
{
    int result = __real_rename(path, to);
    record("rename", result, "pp", path, to);
    return result;
}

int __wrap_mkdir(char *path, unsigned mode)
{
    int result = __real_mkdir(path, mode);
    record("mkdir", result, "pu", path, mode);
    return result;
}

int __wrap_rmdir(char *path)
{
    int result = __real_rmdir(path);
    record("rmdir", result, "p", path);
    return result;
}

int __wrap_chdir(char *path)
{
    int result = __real_chdir(path);
    record("chdir", result, "p", path);
    return result;
}

int __wrap_chmod(char *path, unsigned mode)
{
    int result = __real_chmod(path, mode);
    record("chmod", result, "pu", path, mode);
    return result;
}

int __wrap_kill(int pid, int signal)
{
    int result = __real_kill(pid, signal);
    record("kill", result, "ii", pid, signal);
    return result;
}

int __wrap_getpid(void)
{
    int result = __real_getpid();
    record("getpid", result, "");
    return result;
}

int __wrap_getppid(void)
{
    int result = __real_getppid();
    record("getppid", result, "");
    return result;
}

unsigned __wrap_getuid(void)
{
    unsigned result = __real_getuid();
    record("getuid", result, "");
    return result;
}

unsigned __wrap_geteuid(void)
{
    unsigned result = __real_geteuid();
    record("geteuid", result, "");
    return result;
}

unsigned __wrap_getgid(void)
{
    unsigned result = __real_getgid();
    record("getgid", result, "");
    return result;
}

int __wrap_setuid(unsigned user)
{
    int result = __real_setuid(user);
    record("setuid", result, "u", user);
    return result;
}

int __wrap_socket(int domain, int type, int protocol)
{
    int result = __real_socket(domain, type, protocol);
    record("socket", result, "iii", domain, type, protocol);
    return result;
}

int __wrap_listen(int fd, int backlog)
{
    int result = __real_listen(fd, backlog);
    record("listen", result, "ii", fd, backlog);
    return result;
}
