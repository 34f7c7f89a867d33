/*
 * Two indexes of one text that many threads ask at once: one that a thread makes
 * and another frees, and one in memory that may not be written then, as the text.
 * All lines of the text are alike, so that each answer is known by arithmetic. `shared_indexes ROUNDS` says how often each thread asks. With
 * `shared_indexes fault` the threads also write to one place unguarded, which
 * what looks for races must find. The last line printed is 'N passed, M failed'.
 */
#define _DEFAULT_SOURCE
#include <pthread.h>
#include <stdint.h>
#include <stdio.h>
#include <stdlib.h>
#include <string.h>
#include <sys/mman.h>

#include <str_index.h>

enum { THREADS = 8, LINE = 20, LINES = 10000, ROUNDS = 20000 };

/* A line by its bytes, chars and UTF-16 code units: the char of four bytes begins at byte 13. */
static const char line[LINE + 1] = "line of text \360\237\220\270b\r\n";
enum { CHARS = 17, UNITS = 18, FROG = 13, AFTER_FROG = 17, CONTENT = 18 };

static const char *text;
static size_t len = LINE * LINES;
static str_index *shared, *closed;
static size_t rounds = ROUNDS, written;
static int has_fault;

/* What a thread has found. */
struct found {
    const str_index *index;
    size_t first, passed, failed;
};

static void same(struct found *found, int right)
{
    found->passed += right != 0;
    found->failed += right == 0;
}

/* The questions of a line, and of the bytes before and after its char of four bytes. */
static void ask(struct found *found, const str_index *index, size_t at)
{
    size_t start = at * LINE;
    str_indices_position frog = {at, FROG}, after = {at, FROG + 2}, there;
    str_indices_range range = {frog, after};
    str_indices_bytes bytes = str_index_line(index, STR_INDICES_LINE_TYPE_CRLF, at);
    same(found, bytes.start == start && bytes.end == start + CONTENT);
    same(found, str_index_line_end(index, STR_INDICES_LINE_TYPE_CRLF, at) == start + CONTENT);
    same(found, str_index_to_byte_idx(index, STR_INDICES_CRLF, at) == start);
    same(found, str_index_to_byte_idx(index, STR_INDICES_CHARS, CHARS * at) == start);
    same(found, str_index_from_byte_idx(index, STR_INDICES_UTF16, start + AFTER_FROG) == UNITS * at + FROG + 2);
    same(found, str_index_from_byte_idx(index, STR_INDICES_LINES, start + LINE - 1) == at);
    there = str_index_position_of(index, STR_INDICES_LINE_TYPE_CRLF, STR_INDICES_ENCODING_UTF16, start + AFTER_FROG);
    same(found, there.line == at && there.character == FROG + 2);
    same(found,
         str_index_byte_of(index, STR_INDICES_LINE_TYPE_CRLF, STR_INDICES_ENCODING_UTF16, after) == start + AFTER_FROG);
    same(found,
         str_index_exact_byte_of(index, STR_INDICES_LINE_TYPE_CRLF, STR_INDICES_ENCODING_UTF32, frog) == start + FROG);
    bytes = str_index_byte_range(index, STR_INDICES_LINE_TYPE_CRLF, STR_INDICES_ENCODING_UTF16, range);
    same(found, bytes.start == start + FROG && bytes.end == start + AFTER_FROG);
    same(found, str_index_is_char_boundary(index, start + FROG) && !str_index_is_char_boundary(index, start + 14));
    same(found, str_index_count(index, STR_INDICES_CRLF) == LINES && str_index_len(index) == len);
}

static void *ask_often(void *given)
{
    struct found *found = (struct found *)given;
    for (size_t round = 0; round < rounds; round++) {
        ask(found, found->index, (found->first + round * 7919) % LINES);
        if (has_fault)
            written++;
    }
    return NULL;
}

static void *make(void *status)
{
    *(str_index_status *)status = str_index_make(&shared, text, len);
    return NULL;
}

/* The text and an index of it, in one block that is closed for writing. */
static int make_closed(void)
{
    size_t size = str_index_size(len);
    char *block = (char *)mmap(NULL, size + len, PROT_READ | PROT_WRITE, MAP_PRIVATE | MAP_ANONYMOUS, -1, 0);
    if (block == (char *)MAP_FAILED)
        return 0;
    for (size_t at = 0; at < LINES; at++)
        memcpy(block + size + at * LINE, line, LINE);
    text = block + size;
    return str_index_make_in(&closed, block, size, text, len) == STR_INDEX_OK &&
           mprotect(block, size + len, PROT_READ) == 0;
}

int main(int number, char **words)
{
    pthread_t threads[THREADS], maker;
    struct found found[THREADS], all = {NULL, 0, 0, 0};
    str_index_status status = STR_INDEX_NO_MEMORY;
    has_fault = number > 1 && strcmp(words[1], "fault") == 0;
    if (number > 1)
        rounds = has_fault ? 10 : (size_t)strtoull(words[1], NULL, 10);
    if (!make_closed() || pthread_create(&maker, NULL, make, &status) != 0 || pthread_join(maker, NULL) != 0 ||
        status != STR_INDEX_OK)
        return 1;
    memset(found, 0, sizeof found);
    for (size_t i = 0; i < THREADS; i++) {
        found[i].index = i % 2 == 0 ? shared : closed;
        found[i].first = i * LINES / THREADS;
        if (pthread_create(&threads[i], NULL, ask_often, &found[i]) != 0)
            return 1;
    }
    for (size_t i = 0; i < THREADS; i++) {
        pthread_join(threads[i], NULL);
        all.passed += found[i].passed;
        all.failed += found[i].failed;
    }
    str_index_free(shared);
    printf("%zu passed, %zu failed\n", all.passed, all.failed);
    return all.failed != 0;
}
