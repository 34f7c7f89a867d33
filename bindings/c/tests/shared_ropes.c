/*
 * Ropes in several threads: one whose memory may not be written, with its handle,
 * that all ask at once; and one that a thread types into and takes back while
 * another one saves what it was by snapshots, and changes these. The memory is of
 * one block, so that it can be closed for writing. `shared_ropes ROUNDS CHANGES`
 * says how often each thread asks, and how many changes there are. The last line
 * printed is 'N passed, M failed'.
 */
#define _DEFAULT_SOURCE
#include <pthread.h>
#include <stdint.h>
#include <stdio.h>
#include <stdlib.h>
#include <string.h>
#include <sys/mman.h>

#include <str_rope.h>

enum { THREADS = 4, LINE = 20, LINES = 20000, ROUNDS = 20000, CHANGES = 1000000, ALIGN = 16 };

static const char line[LINE + 1] = "line of text \360\237\220\270b\r\n";
enum { CHARS = 17, UNITS = 18, FROG = 13, AFTER_FROG = 17, CONTENT = 18 };

static char text[LINE * LINES];
static const str_rope *shared;
static size_t rounds = ROUNDS, changes = CHANGES;

/* While `arena` is not null, memory is taken from it and none is given back. */
static char *arena;
static size_t taken, arena_size = (size_t)1 << 26;

void *__real_malloc(size_t size);
void *__real_realloc(void *block, size_t size);
void __real_free(void *block);
void *__wrap_malloc(size_t size);
void *__wrap_realloc(void *block, size_t size);
void __wrap_free(void *block);

/* A block of the arena, with its size before it. */
static void *take(size_t size)
{
    char *block = arena + taken + ALIGN;
    if (arena_size - taken < size + 2 * ALIGN)
        return NULL;
    memcpy(block - ALIGN, &size, sizeof size);
    taken += (size + 2 * ALIGN - 1) / ALIGN * ALIGN;
    return block;
}

void *__wrap_malloc(size_t size)
{
    return arena != NULL ? take(size) : __real_malloc(size);
}

void *__wrap_realloc(void *block, size_t size)
{
    size_t old = 0;
    void *other;
    if (arena == NULL)
        return __real_realloc(block, size);
    other = take(size);
    if (block != NULL && other != NULL) {
        memcpy(&old, (char *)block - ALIGN, sizeof old);
        memcpy(other, block, old < size ? old : size);
    }
    return other;
}

void __wrap_free(void *block)
{
    if (arena == NULL)
        __real_free(block);
}

/* What a thread has found. */
struct found {
    size_t first, passed, failed;
};

static void same(struct found *found, int right)
{
    found->passed += right != 0;
    found->failed += right == 0;
}

/* The questions of a line, and of the bytes before and after its char of four bytes. */
static void ask(struct found *found, const str_rope *rope, size_t at)
{
    char copy[LINE];
    size_t start = at * LINE;
    str_rope_chunk chunk, chunks[2];
    str_indices_position frog = {at, FROG}, after = {at, FROG + 2}, there;
    str_indices_bytes bytes = str_rope_line(rope, STR_INDICES_LINE_TYPE_CRLF, at);
    same(found, bytes.start == start && bytes.end == start + CONTENT);
    same(found, str_rope_line_end(rope, STR_INDICES_LINE_TYPE_CRLF, at) == start + CONTENT);
    same(found, str_rope_to_byte_idx(rope, STR_INDICES_CRLF, at) == start);
    same(found, str_rope_to_byte_idx(rope, STR_INDICES_CHARS, CHARS * at) == start);
    same(found, str_rope_from_byte_idx(rope, STR_INDICES_UTF16, start + AFTER_FROG) == UNITS * at + FROG + 2);
    there = str_rope_position_of(rope, STR_INDICES_LINE_TYPE_CRLF, STR_INDICES_ENCODING_UTF16, start + AFTER_FROG);
    same(found, there.line == at && there.character == FROG + 2);
    same(found,
         str_rope_byte_of(rope, STR_INDICES_LINE_TYPE_CRLF, STR_INDICES_ENCODING_UTF16, after) == start + AFTER_FROG);
    same(found,
         str_rope_exact_byte_of(rope, STR_INDICES_LINE_TYPE_CRLF, STR_INDICES_ENCODING_UTF32, frog) == start + FROG);
    same(found, str_rope_is_char_boundary(rope, start + FROG) && !str_rope_is_char_boundary(rope, start + 14));
    same(found, str_rope_count(rope, STR_INDICES_CRLF) == LINES && str_rope_len(rope) == sizeof text);
    same(found, str_rope_read(rope, start, copy, LINE) == LINE && memcmp(copy, line, LINE) == 0);
    same(found,
         str_rope_copy_to(rope, start, start + LINE, copy, LINE) == STR_ROPE_OK && memcmp(copy, line, LINE) == 0);
    same(found, str_rope_chunk_at(rope, start, &chunk) && chunk.start <= start && start < chunk.start + chunk.len &&
                    chunk.text[start - chunk.start] == line[0]);
    same(found, str_rope_chunks_at(rope, start, chunks, 2) > 0 && chunks[0].text == chunk.text &&
                    chunks[1].start == (chunks[1].len > 0 ? chunk.start + chunk.len : 0));
    same(found, str_rope_chunks_before(rope, start + 1, chunks, 2) > 0 && chunks[0].text == chunk.text &&
                    chunks[1].start + chunks[1].len == (chunks[1].len > 0 ? chunk.start : 0));
}

static void *ask_often(void *given)
{
    struct found *found = (struct found *)given;
    for (size_t round = 0; round < rounds; round++)
        ask(found, shared, (found->first + round * 7919) % LINES);
    return NULL;
}

/* A text whose handle and memory are of the arena, which is closed for writing. */
static int make_closed(void)
{
    str_rope *rope;
    arena = (char *)mmap(NULL, arena_size, PROT_READ | PROT_WRITE, MAP_PRIVATE | MAP_ANONYMOUS, -1, 0);
    if (arena == (char *)MAP_FAILED)
        return 0;
    rope = (str_rope *)take(sizeof *rope);
    memset(rope, 0, sizeof *rope);
    shared = rope;
    return str_rope_assign(rope, text, sizeof text) == STR_ROPE_OK && mprotect(arena, arena_size, PROT_READ) == 0;
}

/* The closed text, asked by all threads at once. */
static int ask_what_may_not_be_written(struct found *all)
{
    pthread_t threads[THREADS];
    struct found found[THREADS];
    char *closed;
    if (!make_closed())
        return 0;
    /* what is taken from here on is none of the rope's */
    closed = arena;
    arena = NULL;
    for (size_t number = 0; number < THREADS; number++) {
        memset(&found[number], 0, sizeof found[number]);
        found[number].first = number * LINES / THREADS;
        if (pthread_create(&threads[number], NULL, ask_often, &found[number]) != 0)
            return 0;
    }
    for (size_t number = 0; number < THREADS; number++) {
        if (pthread_join(threads[number], NULL) != 0)
            return 0;
        all->passed += found[number].passed;
        all->failed += found[number].failed;
    }
    return munmap(closed, arena_size) == 0;
}

/*
 * Marks are typed at one line after the other, and some are taken out again. After a number of
 * changes all are taken back. A text without its marks is the text from before.
 */
enum { MARK = '#', AT_A_LINE = 8, INSERTS = 5, UNTIL_UNDONE = 1000 };

static str_rope typed = {NULL};

/* What is handed from the thread that types to the one that saves: a snapshot, and how many marks it has. */
static pthread_mutex_t lock = PTHREAD_MUTEX_INITIALIZER;
static pthread_cond_t is_handed = PTHREAD_COND_INITIALIZER;
static str_rope handed = {NULL};
static size_t marks;
static int has_handed, is_over;

/* Whether a rope has the text and that number of marks in it. */
static int has_marks(const str_rope *rope, size_t number)
{
    str_rope_chunk chunk;
    size_t at = 0, found = 0, other = 0;
    for (; str_rope_chunk_at(rope, at, &chunk); at += chunk.len)
        for (size_t i = 0; i < chunk.len; i++) {
            if (chunk.text[i] == MARK)
                found++;
            else if (other == sizeof text || chunk.text[i] != text[other++])
                return 0;
        }
    return found == number && other == sizeof text;
}

/* A change of a snapshot that the other thread has too. */
static int changes_alone(str_rope *own)
{
    size_t len = str_rope_len(own), at = str_rope_to_byte_idx(own, STR_INDICES_CRLF, LINES / 2),
           end = str_rope_to_byte_idx(own, STR_INDICES_CRLF, LINES / 2 + 1);
    return str_rope_replace(own, at, end, "one\ntwo", 7) == STR_ROPE_OK && str_rope_len(own) == len - (end - at) + 7;
}

/* Takes the snapshot that was handed on, once there is one; whether one came before it was over. */
static int take_handed(str_rope *own, size_t *number)
{
    int came;
    pthread_mutex_lock(&lock);
    while (!has_handed && !is_over)
        pthread_cond_wait(&is_handed, &lock);
    came = has_handed;
    *own = handed;
    *number = marks;
    has_handed = 0;
    pthread_mutex_unlock(&lock);
    return came;
}

static void *save(void *given)
{
    struct found *found = (struct found *)given;
    str_rope own;
    size_t number;
    while (take_handed(&own, &number)) {
        same(found, has_marks(&own, number));
        same(found, changes_alone(&own));
        str_rope_free(&own);
    }
    return NULL;
}

/* Hands a snapshot on where the last one is taken, or says that it is over. */
static void hand_on(struct found *found, size_t number, int ends)
{
    pthread_mutex_lock(&lock);
    if (!has_handed && !ends) {
        memset(&handed, 0, sizeof handed);
        same(found, str_rope_snapshot(&typed, &handed) == STR_ROPE_OK);
        marks = number;
        has_handed = 1;
    }
    is_over = ends;
    pthread_cond_signal(&is_handed);
    pthread_mutex_unlock(&lock);
}

static void type(struct found *found)
{
    static const char mark[1] = {MARK};
    str_rope before = STR_ROPE_EMPTY;
    size_t number = 0, at = 0;
    same(found, str_rope_snapshot(&typed, &before) == STR_ROPE_OK);
    for (size_t change = 0; change < changes; change++) {
        if (change % AT_A_LINE == 0)
            at = str_rope_to_byte_idx(&typed, STR_INDICES_CRLF, change * 7919 % LINES);
        if (change % UNTIL_UNDONE == UNTIL_UNDONE - 1) {
            same(found, str_rope_snapshot(&before, &typed) == STR_ROPE_OK);
            number = 0;
        } else if (change % AT_A_LINE < INSERTS) {
            same(found, str_rope_insert(&typed, at++, mark, 1) == STR_ROPE_OK);
            number++;
        } else {
            same(found, str_rope_remove(&typed, at - 1, at) == STR_ROPE_OK);
            at--;
            number--;
        }
        hand_on(found, number, 0);
    }
    same(found, has_marks(&typed, number) && has_marks(&before, 0));
    str_rope_free(&before);
    hand_on(found, 0, 1);
}

static int save_while_typing(struct found *all)
{
    pthread_t saver;
    struct found found = {0, 0, 0};
    if (str_rope_assign(&typed, text, sizeof text) != STR_ROPE_OK || pthread_create(&saver, NULL, save, &found) != 0)
        return 0;
    type(all);
    if (pthread_join(saver, NULL) != 0)
        return 0;
    str_rope_free(&typed);
    all->passed += found.passed;
    all->failed += found.failed;
    printf("%zu changes, %zu snapshots saved\n", changes, found.passed / 2);
    return found.passed != 0;
}

int main(int number, char **words)
{
    struct found all = {0, 0, 0};
    if (number > 1)
        rounds = strtoul(words[1], NULL, 10);
    if (number > 2)
        changes = strtoul(words[2], NULL, 10);
    for (size_t at = 0; at < LINES; at++)
        memcpy(text + at * LINE, line, LINE);
    if (!ask_what_may_not_be_written(&all) || !save_while_typing(&all)) {
        puts("0 passed, 1 failed");
        return 1;
    }
    printf("%zu passed, %zu failed\n", all.passed, all.failed);
    return all.failed != 0;
}
