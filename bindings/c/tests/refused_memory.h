/*
 * Memory that is refused when a test says so, and counted: the allocations that
 * were tried, the blocks that are not freed yet, and the bytes that the last one
 * asked for. A program that takes this in is linked with -Wl,--wrap= of each
 * function of the C library below.
 */
#ifndef REFUSED_MEMORY_H
#define REFUSED_MEMORY_H

#include <errno.h>
#include <stddef.h>

/* Which allocation is refused, from 1; NEVER and none is, ALWAYS and each is. */
enum { NEVER = -1, ALWAYS = 0, MOST_ALLOCATIONS = 1000 };

static long refused = NEVER, allocations, living;
static size_t asked;

void *__real_malloc(size_t size);
void *__real_calloc(size_t number, size_t size);
void *__real_realloc(void *block, size_t size);
void *__real_aligned_alloc(size_t alignment, size_t size);
int __real_posix_memalign(void **block, size_t alignment, size_t size);
void __real_free(void *block);

void *__wrap_malloc(size_t size);
void *__wrap_calloc(size_t number, size_t size);
void *__wrap_realloc(void *block, size_t size);
void *__wrap_aligned_alloc(size_t alignment, size_t size);
int __wrap_posix_memalign(void **block, size_t alignment, size_t size);
void __wrap_free(void *block);

static int is_refused(size_t size)
{
    allocations++;
    asked = size;
    return refused == ALWAYS || refused == allocations;
}

/* Counts a block that is new. */
static void *counted(void *block)
{
    living += block != NULL;
    return block;
}

void *__wrap_malloc(size_t size)
{
    return is_refused(size) ? NULL : counted(__real_malloc(size));
}

void *__wrap_calloc(size_t number, size_t size)
{
    return is_refused(number * size) ? NULL : counted(__real_calloc(number, size));
}

void *__wrap_realloc(void *block, size_t size)
{
    if (is_refused(size))
        return NULL;
    return block == NULL ? counted(__real_realloc(block, size)) : __real_realloc(block, size);
}

void *__wrap_aligned_alloc(size_t alignment, size_t size)
{
    return is_refused(size) ? NULL : counted(__real_aligned_alloc(alignment, size));
}

int __wrap_posix_memalign(void **block, size_t alignment, size_t size)
{
    int error = is_refused(size) ? ENOMEM : __real_posix_memalign(block, alignment, size);
    living += error == 0;
    return error;
}

void __wrap_free(void *block)
{
    living -= block != NULL;
    __real_free(block);
}

#endif
