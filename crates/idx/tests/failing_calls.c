/*
 * Preloaded to a program, this makes one of its calls of the C library fail or
 * do less than it was asked. The environment variable FAULT names what, and
 * FAULT_AT which call of the functions concerned, from 1. When that call comes,
 * a byte is written to the descriptor FAULT_TOLD, where it is set. With
 * ONE_BYTE set, every read and write of standard input and output moves at
 * most one byte.
 *
 * FAULT              functions        at that call
 * memory             malloc, realloc  no memory
 * memory_from        malloc, realloc  no memory, and none at later calls
 * read               read             the error EIO
 * interrupted_read   read             the error EINTR
 * short_read         read             at most one byte
 * write              write            the error ENOSPC
 * interrupted_write  write            the error EINTR
 * short_write        write            at most one byte
 * empty_write        write            no byte, and no error
 */
#define _GNU_SOURCE
#include <errno.h>
#include <stdlib.h>
#include <string.h>
#include <sys/syscall.h>
#include <unistd.h>

extern void *__libc_malloc(size_t size);
extern void *__libc_realloc(void *block, size_t size);

static const char *fault = "";
static long fault_at;
static long calls;
static int told = -1;
static int one_byte;

__attribute__((constructor)) static void start(void)
{
    const char *at = getenv("FAULT_AT");
    const char *descriptor = getenv("FAULT_TOLD");
    fault_at = at ? atol(at) : 0;
    told = descriptor ? atoi(descriptor) : -1;
    one_byte = getenv("ONE_BYTE") != NULL;
    fault = getenv("FAULT") ? getenv("FAULT") : "";
}

/* Counts a call that could have that fault, and tells of the one that has it. */
static int counts(const char *kind)
{
    if (strcmp(fault, kind) != 0)
        return 0;
    if (++calls == fault_at && told >= 0)
        syscall(SYS_write, told, "!", 1);
    return 1;
}

/* Whether this call has that fault. */
static int has(const char *kind)
{
    return counts(kind) && calls == fault_at;
}

static int is_refused(void)
{
    return has("memory") || (counts("memory_from") && calls >= fault_at);
}

static size_t less(size_t size)
{
    return size > 1 ? 1 : size;
}

void *malloc(size_t size)
{
    if (is_refused()) {
        errno = ENOMEM;
        return NULL;
    }
    return __libc_malloc(size);
}

void *realloc(void *block, size_t size)
{
    if (is_refused()) {
        errno = ENOMEM;
        return NULL;
    }
    return __libc_realloc(block, size);
}

ssize_t read(int descriptor, void *bytes, size_t size)
{
    if (has("read")) {
        errno = EIO;
        return -1;
    }
    if (has("interrupted_read")) {
        errno = EINTR;
        return -1;
    }
    if (has("short_read") || one_byte)
        size = less(size);
    return syscall(SYS_read, descriptor, bytes, size);
}

ssize_t write(int descriptor, const void *bytes, size_t size)
{
    if (descriptor != STDOUT_FILENO)
        return syscall(SYS_write, descriptor, bytes, size);
    if (has("write")) {
        errno = ENOSPC;
        return -1;
    }
    if (has("interrupted_write")) {
        errno = EINTR;
        return -1;
    }
    if (has("empty_write"))
        return 0;
    if (has("short_write") || one_byte)
        size = less(size);
    return syscall(SYS_write, descriptor, bytes, size);
}
