/* A library that is loaded before a program's others (LD_PRELOAD): a read or a write takes at most SHORT bytes, and the read
   that READ numbers, the write to out that OUT numbers and the write to the error stream that ERR numbers, each from 1 on,
   fail. It writes on the descriptor that ASKED numbers how many reads, writes to out and writes to the error stream there
   were. It calls the system itself. */
#define _GNU_SOURCE
#include <errno.h>
#include <stdio.h>
#include <stdlib.h>
#include <sys/syscall.h>
#include <unistd.h>

enum { READS, WRITES_TO_OUT, WRITES_TO_ERR, KINDS };

static const char *const names[KINDS] = { "READ", "OUT", "ERR" };
static long failing[KINDS], asked[KINDS], most;

/* The number in a variable of the environment, or another one where it isn't there. */
static long number_in(const char *name, long other)
{
    const char *number = getenv(name);

    return number != NULL ? atol(number) : other;
}

/* What was read before the program begins isn't its own. */
__attribute__((constructor)) static void begin(void)
{
    for (int kind = 0; kind < KINDS; kind++) {
        failing[kind] = number_in(names[kind], 0);
        asked[kind] = 0;
    }
    most = number_in("SHORT", 65536);
}

static int fails(int kind)
{
    asked[kind]++;
    if (asked[kind] != failing[kind])
        return 0;
    errno = EIO;
    return 1;
}

static size_t shortened(size_t size)
{
    return size > (size_t) most ? (size_t) most : size;
}

ssize_t read(int file, void *bytes, size_t size)
{
    return fails(READS) ? -1 : syscall(SYS_read, file, bytes, shortened(size));
}

ssize_t pread(int file, void *bytes, size_t size, off_t from)
{
    return fails(READS) ? -1 : syscall(SYS_pread64, file, bytes, shortened(size), from);
}

ssize_t pread64(int file, void *bytes, size_t size, off64_t from)
{
    return fails(READS) ? -1 : syscall(SYS_pread64, file, bytes, shortened(size), from);
}

ssize_t write(int file, const void *bytes, size_t size)
{
    if (file == 1 || file == 2)
        return fails(file == 1 ? WRITES_TO_OUT : WRITES_TO_ERR) ? -1 : syscall(SYS_write, file, bytes, shortened(size));
    return syscall(SYS_write, file, bytes, size);
}

__attribute__((destructor)) static void end(void)
{
    char text[96];
    int length = snprintf(text, sizeof text, "%ld %ld %ld\n", asked[READS], asked[WRITES_TO_OUT], asked[WRITES_TO_ERR]);

    if (syscall(SYS_write, (int) number_in("ASKED", 2), text, (size_t) length) != length)
        return;
}
