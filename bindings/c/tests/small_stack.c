/*
 * What a call needs of the stack does not grow with the text. A long text is
 * made by small inserts and taken out again until nothing is left, at random
 * places. Then a rope is appended to itself by its snapshots, until its tree
 * has some fifty levels, and cut, joined and changed, and in the end as long as
 * may be, where more is refused. small_stack BYTES says
 * how long the first text becomes; CTest runs it with a stack of 96 KiB.
 * The last line printed is 'N passed, M failed'.
 */
#include <stdint.h>
#include <stdio.h>
#include <stdlib.h>

#include <str_rope.h>

enum { WORD = 14, LONGEST = 60, CHECKPOINTS = 10, DOUBLINGS = 58, CHANGES = 300 };

/* Each byte of it is a char, so that each byte index is a boundary. */
static const char word[WORD + 1] = "word of text\r\n";

static int passed, failed;

static int same(int right, const char *what, size_t at)
{
    passed += right;
    failed += !right;
    if (!right)
        printf("%s at %zu\n", what, at);
    return right;
}

static uint64_t state = 20261127;

/* A number below `below`, by xorshift. */
static size_t pick(size_t below)
{
    state ^= state << 13;
    state ^= state >> 7;
    state ^= state << 17;
    return below == 0 ? 0 : (size_t)(state >> 11) % below;
}

/* Every byte is a char and a unit, and each word has one LF. */
static void checkpoint(str_rope *rope, size_t len)
{
    same(str_rope_len(rope) == len && str_rope_count(rope, STR_INDICES_CHARS) == len, "len", len);
    same(str_rope_to_byte_idx(rope, STR_INDICES_UTF16, len / 2) == len / 2, "to_byte_idx", len / 2);
}

/* Words at random places, and at times many one after the other. */
static void make(str_rope *rope, size_t bytes)
{
    size_t number = bytes / WORD, at = 0;
    for (size_t i = 0; i < number && failed == 0; i++) {
        at = pick(4) == 0 ? pick(i * WORD + 1) : at;
        if (str_rope_insert(rope, at, word, WORD) != STR_ROPE_OK)
            same(0, "insert", at);
        at += WORD;
        if (i % (number / CHECKPOINTS + 1) == 0)
            checkpoint(rope, (i + 1) * WORD);
    }
    same(str_rope_count(rope, STR_INDICES_LF) == number, "count", number);
}

/* A few bytes at random places, until there are none. */
static void take(str_rope *rope, size_t bytes)
{
    size_t len = str_rope_len(rope), step = bytes / CHECKPOINTS + 1, next = len / step;
    while (len > 0 && failed == 0) {
        size_t from = pick(len), out = 1 + pick(LONGEST);
        if (out > len - from)
            out = len - from;
        if (str_rope_remove(rope, from, from + out) != STR_ROPE_OK)
            same(0, "remove", from);
        len -= out;
        if (len / step != next)
            checkpoint(rope, len);
        next = len / step;
    }
    checkpoint(rope, 0);
}

/* All of a text, once more. */
static void append_to_itself(str_rope *rope)
{
    str_rope copy = STR_ROPE_EMPTY;
    same(str_rope_snapshot(rope, &copy) == STR_ROPE_OK && str_rope_append(rope, &copy) == STR_ROPE_OK, "append",
         str_rope_len(rope));
    str_rope_free(&copy);
}

/* Takes the end of a text off at a place, and puts it on again. */
static void cut_and_join(str_rope *rope, size_t at)
{
    str_rope rest = STR_ROPE_EMPTY;
    same(str_rope_split_off(rope, at, &rest) == STR_ROPE_OK, "split_off", at);
    same(str_rope_len(rope) == at && str_rope_count(rope, STR_INDICES_CHARS) == at, "len", at);
    same(str_rope_append(rope, &rest) == STR_ROPE_OK, "append", at);
    str_rope_free(&rest);
}

/* A high tree: some 2^62 bytes, in nodes that stand in it many times. */
static void double_up(str_rope *rope)
{
    size_t words_in = 1;
    same(str_rope_assign(rope, word, WORD) == STR_ROPE_OK, "assign", 0);
    for (int i = 0; i < DOUBLINGS && failed == 0; i++, words_in *= 2)
        append_to_itself(rope);
    for (int i = 0; i < CHANGES && failed == 0; i++, words_in++) {
        size_t at = WORD * pick(words_in + 1);
        same(str_rope_insert(rope, at, word, WORD) == STR_ROPE_OK, "insert", at);
        cut_and_join(rope, 1 + pick(WORD * words_in));
        same(str_rope_to_byte_idx(rope, STR_INDICES_CRLF, at / WORD) == at, "to_byte_idx", at);
    }
    same(str_rope_count(rope, STR_INDICES_LF) == words_in, "count", words_in);
    checkpoint(rope, WORD * words_in);
}

/* A text that is as long as may be, which stays as it is where more would come. */
static void refuse_more(str_rope *rope)
{
    str_indices_range range = {{0, 0}, {0, 0}};
    str_rope rest = STR_ROPE_EMPTY;
    size_t len;
    append_to_itself(rope);
    len = str_rope_len(rope);
    same(str_rope_snapshot(rope, &rest) == STR_ROPE_OK, "snapshot", len);
    same(str_rope_append(rope, &rest) == STR_ROPE_TOO_LONG && str_rope_len(&rest) == len, "append", len);
    same(str_rope_remove(&rest, (size_t)PTRDIFF_MAX - len, len) == STR_ROPE_OK, "remove", len);
    same(str_rope_append(rope, &rest) == STR_ROPE_OK && str_rope_len(&rest) == 0, "append", len);
    checkpoint(rope, (size_t)PTRDIFF_MAX);
    same(str_rope_insert(rope, len, word, 1) == STR_ROPE_TOO_LONG, "insert", len);
    same(str_rope_replace(rope, 0, 1, word, 2) == STR_ROPE_TOO_LONG, "replace", len);
    same(str_rope_change(rope, STR_INDICES_ENCODING_UTF8, range, word, 1) == STR_ROPE_TOO_LONG, "change", len);
    same(str_rope_insert(rope, len, word, 0) == STR_ROPE_OK, "insert nothing", len);
    same(str_rope_replace(rope, 0, WORD, word, WORD) == STR_ROPE_OK, "replace", len);
    checkpoint(rope, (size_t)PTRDIFF_MAX);
}

int main(int number, char **words)
{
    size_t bytes = number > 1 ? (size_t)atoll(words[1]) : 1000000;
    str_rope rope = STR_ROPE_EMPTY;
    make(&rope, bytes);
    take(&rope, bytes);
    double_up(&rope);
    refuse_more(&rope);
    str_rope_free(&rope);
    printf("%d passed, %d failed\n", passed, failed);
    return failed != 0;
}
