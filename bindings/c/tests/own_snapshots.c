/*
 * A text with two owners in two threads: one reads it and gives it back, and then
 * the other one changes it where it lies, and frees it. That goes by the number of
 * owners alone, which the library counts: a byte through a pipe says when, and
 * neither ThreadSanitizer nor helgrind takes that for an order. So both tell of
 * races here which are none, and tsan.supp and helgrind.supp silence them. The
 * last line printed is 'N passed, M failed'.
 */
#define _GNU_SOURCE
#include <pthread.h>
#include <stdio.h>
#include <string.h>
#include <sys/syscall.h>
#include <unistd.h>

#include <str_rope.h>

enum { LEN = 20000, ROUNDS = 20 };

static char text[LEN];
static int passed, failed, ends[2];

static void same(int right, const char *what, int round)
{
    passed += right;
    failed += !right;
    if (!right)
        printf("%s, round %d\n", what, round);
}

/* Whether a rope has the text and a letter for each change, by its chunks. */
static int has_letters(const str_rope *rope, size_t letters)
{
    str_rope_chunk chunk;
    size_t at = 0, found = 0;
    for (; str_rope_chunk_at(rope, at, &chunk); at += chunk.len)
        for (size_t i = 0; i < chunk.len; i++)
            found += chunk.text[i] == 'x';
    return at == LEN + letters && found == letters;
}

/* Tells the other thread that it is its turn, and waits for that. The calls go to the system itself, past the tools. */
static void tell(void)
{
    char byte = 0;
    (void)!syscall(SYS_write, ends[1], &byte, (size_t)1);
}

static void wait_for_turn(void)
{
    char byte;
    (void)!syscall(SYS_read, ends[0], &byte, (size_t)1);
}

/* Reads what it is handed, and frees it. */
static void *read_first(void *rope)
{
    int right = has_letters((str_rope *)rope, 0);
    str_rope_free((str_rope *)rope);
    tell();
    return right ? rope : NULL;
}

/* Changes what it is handed, in each chunk, and frees it, after the other owner has given it back. */
static void *change_last(void *rope)
{
    int right = 1;
    wait_for_turn();
    for (size_t at = 0; at < LEN && right; at += STR_ROPE_MAX_CHUNK / 2)
        right = str_rope_replace((str_rope *)rope, at, at + 1, "y", 1) == STR_ROPE_OK;
    str_rope_free((str_rope *)rope);
    return right ? rope : NULL;
}

/* A text, and a snapshot of it that a thread has. */
static int start(void *(*begin)(void *), str_rope *rope, str_rope *copy, pthread_t *thread)
{
    memset(rope, 0, sizeof *rope);
    memset(copy, 0, sizeof *copy);
    return str_rope_assign(rope, text, LEN) == STR_ROPE_OK && str_rope_snapshot(rope, copy) == STR_ROPE_OK &&
           pthread_create(thread, NULL, begin, copy) == 0;
}

/* The other thread reads, and this one changes. */
static void change_after_reading(int round)
{
    str_rope rope, copy;
    pthread_t thread;
    void *answer = NULL;
    same(start(read_first, &rope, &copy, &thread), "start", round);
    wait_for_turn();
    same(str_rope_insert(&rope, 10, "x", 1) == STR_ROPE_OK && has_letters(&rope, 1), "insert", round);
    str_rope_free(&rope);
    same(pthread_join(thread, &answer) == 0 && answer != NULL, "what is read", round);
}

/* This thread reads, and the other one changes. */
static void read_before_changing(int round)
{
    str_rope rope, copy;
    pthread_t thread;
    void *answer = NULL;
    same(start(change_last, &rope, &copy, &thread) && has_letters(&rope, 0), "start", round);
    str_rope_free(&rope);
    tell();
    same(pthread_join(thread, &answer) == 0 && answer != NULL, "what is changed", round);
}

int main(void)
{
    memset(text, 'a', LEN);
    if (pipe(ends) != 0)
        return 1;
    for (int round = 0; round < ROUNDS; round++) {
        change_after_reading(round);
        read_before_changing(round);
    }
    printf("%d passed, %d failed\n", passed, failed);
    return failed != 0;
}
