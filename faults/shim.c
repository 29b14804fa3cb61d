/* Faults from outside, for a program that is linked to the C library: preloaded, it refuses one request for memory, or
 * fails one read of standard input or one write of standard output. What it is to do stands in the environment:
 *
 *   REFUSE=N       the Nth request for memory is refused
 *   REFUSE_FROM=N  the Nth request for memory and all later ones are refused
 *   MARKED=1       requests count, and are refused, only between a write of the line `call` to standard output and the
 *                  next write there
 *   FAIL_READ=N    the Nth read of standard input fails
 *   FAIL_WRITE=N   the Nth write of standard output fails
 *   STOP_WRITE=N   from the Nth write of standard output on none takes a byte
 *   SHORT=1        each of these reads and writes moves one byte
 *   TOLD=FILE      at its end the program writes there how many requests, reads and writes there were; and then, where
 *                  MARKED is given, how many calls of malloc, realloc and posix_memalign were refused
 */
#define _GNU_SOURCE
#include <dlfcn.h>
#include <errno.h>
#include <fcntl.h>
#include <stdio.h>
#include <stdlib.h>
#include <string.h>
#include <unistd.h>

enum kind { MALLOC, REALLOC, ALIGNED, KINDS };

static long requests, reads, writes, refusals[KINDS];

/* Whether the line `call` was the last thing written. */
static int in_call;

static long wanted(const char *name)
{
    const char *value = getenv(name);
    return value ? atol(value) : 0;
}

/* Whether this request is one to be refused. */
static int refused(enum kind kind)
{
    static long number = -1, first, marked;
    if (number < 0) {
        number = wanted("REFUSE");
        first = wanted("REFUSE_FROM");
        marked = wanted("MARKED");
    }
    if (marked && !in_call)
        return 0;
    ++requests;
    if (requests != number && (!first || requests < first))
        return 0;
    ++refusals[kind];
    return 1;
}

void *malloc(size_t size)
{
    static void *(*real)(size_t);
    if (!real)
        real = (void *(*)(size_t))dlsym(RTLD_NEXT, "malloc");
    return refused(MALLOC) ? NULL : real(size);
}

void *realloc(void *block, size_t size)
{
    static void *(*real)(void *, size_t);
    if (!real)
        real = (void *(*)(void *, size_t))dlsym(RTLD_NEXT, "realloc");
    return refused(REALLOC) ? NULL : real(block, size);
}

int posix_memalign(void **block, size_t alignment, size_t size)
{
    static int (*real)(void **, size_t, size_t);
    if (!real)
        real = (int (*)(void **, size_t, size_t))dlsym(RTLD_NEXT, "posix_memalign");
    return refused(ALIGNED) ? ENOMEM : real(block, alignment, size);
}

ssize_t read(int file, void *bytes, size_t count)
{
    static ssize_t (*real)(int, void *, size_t);
    if (!real)
        real = (ssize_t(*)(int, void *, size_t))dlsym(RTLD_NEXT, "read");
    if (file == STDIN_FILENO) {
        if (++reads == wanted("FAIL_READ")) {
            errno = EIO;
            return -1;
        }
        if (wanted("SHORT") && count > 1)
            count = 1;
    }
    return real(file, bytes, count);
}

ssize_t write(int file, const void *bytes, size_t count)
{
    static ssize_t (*real)(int, const void *, size_t);
    if (!real)
        real = (ssize_t(*)(int, const void *, size_t))dlsym(RTLD_NEXT, "write");
    if (file == STDOUT_FILENO) {
        in_call = count == 5 && !memcmp(bytes, "call\n", 5);
        ++writes;
        if (writes == wanted("FAIL_WRITE")) {
            errno = EIO;
            return -1;
        }
        if (wanted("STOP_WRITE") && writes >= wanted("STOP_WRITE"))
            return 0;
        if (wanted("SHORT") && count > 1)
            count = 1;
    }
    return real(file, bytes, count);
}

__attribute__((destructor)) static void tell(void)
{
    const char *name = getenv("TOLD");
    int file = name ? open(name, O_WRONLY | O_CREAT | O_TRUNC, 0644) : -1;
    if (file < 0)
        return;
    dprintf(file, "%ld %ld %ld\n", requests, reads, writes);
    if (wanted("MARKED"))
        dprintf(file, "%ld %ld %ld\n", refusals[MALLOC], refusals[REALLOC], refusals[ALIGNED]);
}
