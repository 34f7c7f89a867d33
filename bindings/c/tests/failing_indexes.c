/*
 * An index whose memory is refused, and what one takes: a single block, of the
 * size that the header says, which is given back with the index or where the
 * bytes are no UTF-8. A question takes none. The last line printed is 'N
 * passed, M failed'.
 */
#include <stdint.h>
#include <stdio.h>
#include <stdlib.h>
#include <string.h>

#include <str_index.h>

#include "refused_memory.h"

/* How far marks are from each other. */
enum { APART = 1024 };

enum { LINE = 20, WHOLE = 100 * LINE * APART };

static const char line[LINE + 1] = "line of text \360\237\220\270b\r\n";
static char whole[WHOLE + 1];

static int passed, failed;

static void same(int right, const char *what, size_t len)
{
    passed += right;
    failed += !right;
    if (!right)
        printf("%s, of %zu bytes\n", what, len);
}

/* Either of the two calls that take a block. */
typedef str_index_status make_function(str_index **index, const char *text, size_t len);

/* What is refused: the text stays, there is no index, and nothing is left over. */
static void try_refused(make_function *make, size_t len)
{
    long before = living;
    str_index *index = (str_index *)whole;
    allocations = 0;
    refused = ALWAYS;
    same(make(&index, whole, len) == STR_INDEX_NO_MEMORY && index == NULL, "memory is refused", len);
    refused = NEVER;
    same(allocations == 1 && living == before, "what is left over after a refusal", len);
}

/* An index where no more memory is to be had once it is made. */
static void try_made(make_function *make, size_t len)
{
    long before = living;
    str_index *index = NULL;
    size_t lines = len / LINE;
    str_indices_position end = {lines, len % LINE};
    allocations = 0;
    same(make(&index, whole, len) == STR_INDEX_OK && index != NULL, "make", len);
    same(allocations == 1 && living == before + 1, "one block is taken", len);
    same(asked == str_index_size(len), "the size of the block", len);
    refused = ALWAYS;
    same(str_index_len(index) == len && str_index_count(index, STR_INDICES_CRLF) == lines, "len and count", len);
    same(str_index_to_byte_idx(index, STR_INDICES_CRLF, lines) == lines * LINE, "to_byte_idx", len);
    same(str_index_from_byte_idx(index, STR_INDICES_LINES, len) == lines, "from_byte_idx", len);
    same(str_index_byte_of(index, STR_INDICES_LINE_TYPE_CRLF, STR_INDICES_ENCODING_UTF8, end) == len, "byte_of", len);
    same(str_index_position_of(index, STR_INDICES_LINE_TYPE_CRLF, STR_INDICES_ENCODING_UTF16, len).line == lines,
         "position_of", len);
    same(allocations == 1, "what questions take", len);
    str_index_free(index);
    refused = NEVER;
    same(living == before, "what is left over", len);
}

/* Bytes that are no UTF-8, of which the last is the first of a char that does not come. */
static void try_wrong(size_t len)
{
    long before = living;
    str_index *index = (str_index *)whole;
    char last = whole[len];
    whole[len] = '\360';
    same(str_index_make(&index, whole, len + 1) == STR_INDEX_NOT_UTF8 && index == NULL, "no UTF-8", len);
    same(living == before, "what is left over where it is no UTF-8", len);
    whole[len] = last;
}

int main(void)
{
    /* of each line the first bytes are chars of one byte */
    static const size_t lens[] = {0, 1, 13, APART - 1, APART, APART + 1, 50 * APART + 7, WHOLE};
    for (size_t at = 0; at < WHOLE; at += LINE)
        memcpy(whole + at, line, LINE);
    /* standard output takes its memory now */
    printf("\n");
    for (size_t i = 0; i < sizeof lens / sizeof lens[0]; i++) {
        try_refused(str_index_make, lens[i]);
        try_refused(str_index_make_utf8, lens[i]);
        try_made(str_index_make, lens[i]);
        try_made(str_index_make_utf8, lens[i]);
        try_wrong(lens[i]);
    }
    str_index_free(NULL);
    printf("%d passed, %d failed\n", passed, failed);
    return failed != 0;
}
