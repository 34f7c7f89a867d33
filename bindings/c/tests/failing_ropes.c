/*
 * A rope whose memory is refused. For each call that takes memory, and each k,
 * the k-th allocation of the call is refused: the call says so, the text is as
 * it was, and the same call does what it should when it is made again. So it is
 * with a snapshot of the text held too, which keeps its text. Where all memory
 * is refused, the calls that take none succeed. In the end nothing that was
 * allocated is left.
 *
 * The last line printed is 'N passed, M failed'.
 */
#include <stdint.h>
#include <stdio.h>
#include <stdlib.h>
#include <string.h>

#include <str_rope.h>

#include "refused_memory.h"

static int passed, failed;

static int same(int right, const char *call, long number)
{
    passed += right;
    failed += !right;
    if (!right)
        printf("%s, allocation %ld\n", call, number);
    return right;
}

/*
 * The texts: what a rope has before a call, what is put in, and what it has after.
 */

enum { WHOLE = 40000, MOST_PUT = 60000, LINE = 20 };

static char whole[WHOLE], put[MOST_PUT], after[WHOLE + MOST_PUT], copy[WHOLE + MOST_PUT];
static const char line[LINE + 1] = "line of text \360\237\220\270b\r\n";

static void make_texts(void)
{
    for (size_t at = 0; at < WHOLE; at += LINE)
        memcpy(whole + at, line, LINE);
    for (size_t at = 0; at < MOST_PUT; at += 3)
        memcpy(put + at, "\343\201\233", 3);
}

static int has(str_rope *rope, const char *text, size_t len)
{
    return str_rope_len(rope) == len && str_rope_copy_to(rope, 0, len, copy, sizeof copy) == STR_ROPE_OK &&
           memcmp(copy, text, len) == 0;
}

/* Whether a rope has the text of `whole`, by its bytes and by some answers. */
static int has_whole(str_rope *rope)
{
    size_t number = WHOLE / LINE;
    return has(rope, whole, WHOLE) && str_rope_count(rope, STR_INDICES_CRLF) == number &&
           str_rope_count(rope, STR_INDICES_CHARS) == 17 * number &&
           str_rope_count(rope, STR_INDICES_UTF16) == 18 * number &&
           str_rope_to_byte_idx(rope, STR_INDICES_LF, 1000) == 1000 * LINE;
}

/*
 * The calls.
 */

typedef enum kind {
    ASSIGN,
    ASSIGN_UTF8,
    SNAPSHOT,
    INSERT,
    INSERT_UTF8,
    REMOVE,
    REPLACE,
    REPLACE_UTF8,
    CHANGE,
    CHANGE_UTF8,
    CHANGE_EXACT,
    APPEND,
    SPLIT_OFF
} kind;

typedef struct call {
    const char *name;
    kind is;
    size_t before, from, to, len; /* how much of `whole` is there before, the part that goes, how much of `put` comes */
} call;

static const call calls[] = {
    {"assign", ASSIGN, WHOLE, 0, WHOLE, MOST_PUT},
    {"assign_utf8", ASSIGN_UTF8, WHOLE, 0, WHOLE, MOST_PUT},
    {"assign to no text", ASSIGN, 0, 0, 0, MOST_PUT},
    {"snapshot", SNAPSHOT, WHOLE, WHOLE, WHOLE, 0},
    {"insert into no text", INSERT, 0, 0, 0, 3},
    {"insert into a piece", INSERT, WHOLE, 20000, 20000, 3},
    {"insert of half a piece", INSERT, WHOLE, 20000, 20000, 600},
    {"insert of many pieces", INSERT, WHOLE, 20000, 20000, MOST_PUT},
    {"insert at the end", INSERT, WHOLE, WHOLE, WHOLE, 3000},
    {"insert_utf8", INSERT_UTF8, WHOLE, 20000, 20000, MOST_PUT},
    {"remove in a piece", REMOVE, WHOLE, 20000, 20004, 0},
    {"remove of many pieces", REMOVE, WHOLE, 777, 39001, 0},
    {"remove of all", REMOVE, WHOLE, 0, WHOLE, 0},
    {"replace", REPLACE, WHOLE, 10000, 13000, MOST_PUT},
    {"replace in a piece", REPLACE, WHOLE, 10000, 10001, 900},
    {"replace_utf8", REPLACE_UTF8, WHOLE, 10000, 13000, MOST_PUT},
    {"change", CHANGE, WHOLE, 20 * LINE, 200 * LINE, MOST_PUT},
    {"change of nothing", CHANGE, WHOLE, 20 * LINE, 20 * LINE, 900},
    {"change_utf8", CHANGE_UTF8, WHOLE, 20 * LINE, 200 * LINE, MOST_PUT},
    {"exact change", CHANGE_EXACT, WHOLE, 20 * LINE, 200 * LINE, MOST_PUT},
    {"append", APPEND, WHOLE, WHOLE, WHOLE, 4},
    {"split_off", SPLIT_OFF, WHOLE, 20001, WHOLE, 0},
};

static str_rope_status make(const call *one, str_rope *rope, str_rope *rest)
{
    str_indices_range range = {{one->from / LINE, 0}, {one->to / LINE, 0}};
    switch (one->is) {
    case ASSIGN: return str_rope_assign(rope, put, one->len);
    case ASSIGN_UTF8: return str_rope_assign_utf8(rope, put, one->len);
    case SNAPSHOT: return str_rope_snapshot(rope, rest);
    case INSERT: return str_rope_insert(rope, one->from, put, one->len);
    case INSERT_UTF8: return str_rope_insert_utf8(rope, one->from, put, one->len);
    case REMOVE: return str_rope_remove(rope, one->from, one->to);
    case REPLACE: return str_rope_replace(rope, one->from, one->to, put, one->len);
    case REPLACE_UTF8: return str_rope_replace_utf8(rope, one->from, one->to, put, one->len);
    case CHANGE: return str_rope_change(rope, STR_INDICES_ENCODING_UTF8, range, put, one->len);
    case CHANGE_UTF8: return str_rope_change_utf8(rope, STR_INDICES_ENCODING_UTF8, range, put, one->len);
    case CHANGE_EXACT: return str_rope_change_exact(rope, STR_INDICES_ENCODING_UTF8, range, put, one->len);
    case APPEND: return str_rope_append(rope, rest);
    default: return str_rope_split_off(rope, one->from, rest);
    }
}

/* Whether the other handle has what the call should leave there. */
static int is_rest_made(const call *one, str_rope *rest)
{
    switch (one->is) {
    case SNAPSHOT: return has_whole(rest);
    case APPEND: return has(rest, "", 0);
    case SPLIT_OFF: return has(rest, whole + one->from, one->to - one->from);
    default: return has(rest, "rest", 4);
    }
}

/* Whether the rope has what the call should leave. */
static int is_made(const call *one, str_rope *rope, str_rope *rest)
{
    size_t back = one->before - one->to;
    memcpy(after, whole, one->from);
    memcpy(after + one->from, one->is == APPEND ? "rest" : put, one->len);
    memcpy(after + one->from + one->len, whole + one->to, back);
    return has(rope, after, one->from + one->len + back) && is_rest_made(one, rest);
}

static void prepare(const call *one, str_rope *rope, str_rope *rest)
{
    same(str_rope_assign(rope, whole, one->before) == STR_ROPE_OK, "assign before", 0);
    same(str_rope_assign(rest, "rest", 4) == STR_ROPE_OK, "assign before", 0);
}

static int has_before(const call *one, str_rope *rope)
{
    return one->before == 0 ? has(rope, "", 0) : has_whole(rope);
}

static int is_as_before(const call *one, str_rope *rope, str_rope *rest)
{
    return has_before(one, rope) && has(rest, "rest", 4);
}

/*
 * The call with its k-th allocation refused, and again; whether it came as far
 * as that allocation. A snapshot of the text may be held meanwhile.
 */
static int try_refused(const call *one, int is_held, long k)
{
    str_rope rope = STR_ROPE_EMPTY, rest = STR_ROPE_EMPTY, held = STR_ROPE_EMPTY;
    prepare(one, &rope, &rest);
    if (is_held)
        same(str_rope_snapshot(&rope, &held) == STR_ROPE_OK, "snapshot before", 0);
    allocations = 0;
    refused = k;
    str_rope_status status = make(one, &rope, &rest);
    int came = allocations >= k;
    refused = NEVER;
    if (came) {
        same(status == STR_ROPE_NO_MEMORY, one->name, k);
        same(is_as_before(one, &rope, &rest), "the text after a refusal", k);
        status = make(one, &rope, &rest);
    }
    same(status == STR_ROPE_OK && is_made(one, &rope, &rest), one->name, k);
    same(!is_held || has_before(one, &held), "the snapshot that is held", k);
    str_rope_free(&rope);
    str_rope_free(&rest);
    str_rope_free(&held);
    return came;
}

static void try_each(const call *one, int is_held)
{
    long k = 1, before = living;
    while (k < MOST_ALLOCATIONS && failed == 0 && try_refused(one, is_held, k))
        k++;
    same(k < MOST_ALLOCATIONS, "how many allocations there are", k - 1);
    same(living == before, "what is left over", living - before);
    printf("%s%s: %ld allocations\n", one->name, is_held ? " beside a snapshot" : "", k - 1);
}

/* Removals from a text where there is no memory, and which of them are done. */
typedef struct {
    size_t len, from, to;
    str_rope_status status;
} removal;

/*
 * Each second byte is a line feed. A text of 5,000 bytes has six pieces of 833 or 834:
 * one of them is not taken below 509 in its own memory, and neither is a part
 * over an edge.
 */
static const removal removals[] = {
    {5, 1, 2, STR_ROPE_OK},
    {256, 1, 2, STR_ROPE_OK},
    {900, 10, 899, STR_ROPE_OK},
    {900, 0, 1, STR_ROPE_OK},
    {900, 0, 900, STR_ROPE_OK},
    {900, 900, 900, STR_ROPE_OK},
    {5000, 0, 1, STR_ROPE_OK},
    {5000, 4999, 5000, STR_ROPE_OK},
    {5000, 100, 400, STR_ROPE_OK},
    {5000, 100, 700, STR_ROPE_NO_MEMORY},
    {5000, 800, 900, STR_ROPE_NO_MEMORY},
    {5000, 0, 4999, STR_ROPE_NO_MEMORY},
    {5000, 0, 5000, STR_ROPE_OK},
};

static void removals_without_memory(void)
{
    static char bytes[5000];
    for (size_t i = 0; i < sizeof bytes; i++)
        bytes[i] = i % 2 == 0 ? 'a' : '\n';
    for (size_t i = 0; i < sizeof removals / sizeof removals[0]; i++) {
        const removal *one = &removals[i];
        str_rope rope = STR_ROPE_EMPTY;
        same(str_rope_assign(&rope, bytes, one->len) == STR_ROPE_OK, "assign", (long)i);
        refused = ALWAYS;
        same(str_rope_remove(&rope, one->from, one->to) == one->status, "a removal", (long)i);
        size_t left = one->status == STR_ROPE_OK ? one->len - (one->to - one->from) : one->len;
        same(str_rope_len(&rope) == left, "what a removal leaves", (long)i);
        str_rope_free(&rope);
        refused = NEVER;
    }
}

/*
 * What takes no memory, where there is none: questions, and a few bytes less or
 * more in one piece of a text that shares none. A piece that would outgrow its
 * memory stays as it is.
 */
static void without_memory(void)
{
    str_rope rope = STR_ROPE_EMPTY, rest = STR_ROPE_EMPTY;
    prepare(&calls[0], &rope, &rest);
    refused = ALWAYS;
    same(has_whole(&rope), "questions", 0);
    same(str_rope_remove(&rope, 20001, 20005) == STR_ROPE_OK && str_rope_len(&rope) == WHOLE - 4, "remove", 0);
    same(str_rope_insert(&rope, 20001, whole + 20001, 4) == STR_ROPE_OK && has_whole(&rope), "insert", 0);
    same(str_rope_insert(&rest, 4, put, 900) == STR_ROPE_NO_MEMORY && has(&rest, "rest", 4), "a longer insert", 0);
    str_rope_free(&rope);
    str_rope_free(&rest);
    refused = NEVER;
}

int main(void)
{
    make_texts();
    /* standard output takes its memory now */
    printf("\n");
    for (size_t i = 0; i < sizeof calls / sizeof calls[0]; i++) {
        try_each(&calls[i], 0);
        try_each(&calls[i], 1);
    }
    long before = living;
    without_memory();
    removals_without_memory();
    same(living == before, "what is left over", living - before);
    printf("%d passed, %d failed\n", passed, failed);
    return failed != 0;
}
