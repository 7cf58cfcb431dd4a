/* A library that is loaded before a program's others (LD_PRELOAD): it refuses the allocation that REFUSED numbers, from 1 on,
   and writes on the descriptor that ASKED numbers how many there were. It calls functions of the GNU C library. */
#include <errno.h>
#include <stddef.h>
#include <stdio.h>
#include <stdlib.h>
#include <unistd.h>

void *__libc_malloc(size_t size);
void *__libc_calloc(size_t count, size_t size);
void *__libc_realloc(void *block, size_t size);
void *__libc_memalign(size_t alignment, size_t size);

static long refused, asked;

/* The number in a variable of the environment, or another one where it isn't there. */
static long number_in(const char *name, long other)
{
    const char *number = getenv(name);

    return number != NULL ? atol(number) : other;
}

/* What was asked for before the program begins isn't its own. */
__attribute__((constructor)) static void begin(void)
{
    refused = number_in("REFUSED", 0);
    asked = 0;
}

static int is_refused(void)
{
    asked++;
    if (asked != refused)
        return 0;
    errno = ENOMEM;
    return 1;
}

void *malloc(size_t size)
{
    return is_refused() ? NULL : __libc_malloc(size);
}

void *calloc(size_t count, size_t size)
{
    return is_refused() ? NULL : __libc_calloc(count, size);
}

void *realloc(void *block, size_t size)
{
    return is_refused() ? NULL : __libc_realloc(block, size);
}

void *aligned_alloc(size_t alignment, size_t size)
{
    return is_refused() ? NULL : __libc_memalign(alignment, size);
}

int posix_memalign(void **block, size_t alignment, size_t size)
{
    void *made = is_refused() ? NULL : __libc_memalign(alignment, size);

    if (made == NULL)
        return ENOMEM;
    *block = made;
    return 0;
}

__attribute__((destructor)) static void end(void)
{
    char text[32];
    int length = snprintf(text, sizeof text, "%ld\n", asked);

    if (write((int) number_in("ASKED", 2), text, (size_t) length) != length)
        return;
}
