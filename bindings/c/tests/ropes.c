/*
 * Worked answers of a rope, with each function of the header called and each
 * refusal in its order. It is compiled as C and as C++. The last line printed
 * is 'N passed, M failed'.
 */
#include <stdint.h>
#include <stdio.h>
#include <string.h>

#include <str_rope.h>

enum { ROOM = 8 * STR_ROPE_MAX_CHUNK };

static int passed, failed;

static void same(int right, const char *call, size_t first, size_t second)
{
    if (right) {
        passed++;
        return;
    }
    failed++;
    printf("%s of %zu, %zu\n", call, first, second);
}

#define TEXT const str_rope *rope
#define ASK(name, ...) str_rope_##name(rope, __VA_ARGS__)
#include "worked_positions.h"

static void has(str_rope *rope, const char *text, size_t len, const char *call)
{
    static char copy[ROOM];
    int right = str_rope_len(rope) == len && str_rope_copy_to(rope, 0, len, copy, len) == STR_ROPE_OK;
    same(right && memcmp(copy, text, len) == 0, call, len, str_rope_len(rope));
}

/* Each HAS is one comparison with a text which is an array. */
#define HAS(rope, text, call) has(rope, text, sizeof text - 1, call)

static str_rope with(const char *text, size_t len)
{
    str_rope rope = STR_ROPE_EMPTY;
    same(str_rope_assign(&rope, text, len) == STR_ROPE_OK, "assign", len, 0);
    return rope;
}

#define WITH(text) with(text, sizeof text - 1)

static void counts(void)
{
    str_rope rope = WITH(breaks);
    for (size_t i = 0; i < NUMBER_OF(counted); i++)
        same(str_rope_count(&rope, (str_indices_scheme)i) == counted[i], "count", i, 0);
    same(str_rope_count(&rope, (str_indices_scheme)7) == 4, "count", 7, 0);
    same(str_rope_len(&rope) == 17, "len", 17, 0);
    str_rope_free(&rope);
}

static void from_bytes(void)
{
    str_rope rope = WITH(breaks);
    for (size_t i = 0; i < NUMBER_OF(from_byte_rows); i++)
        for (size_t scheme = 0; scheme <= SCHEMES; scheme++)
            same(str_rope_from_byte_idx(&rope, (str_indices_scheme)scheme, from_byte_rows[i].byte) ==
                     from_byte_rows[i].by_scheme[scheme],
                 "from_byte_idx", scheme, from_byte_rows[i].byte);
    str_rope_free(&rope);
}

static void to_bytes(void)
{
    str_rope rope = WITH(breaks);
    for (size_t i = 0; i < NUMBER_OF(to_byte_rows); i++)
        for (size_t scheme = 0; scheme <= SCHEMES; scheme++)
            same(str_rope_to_byte_idx(&rope, (str_indices_scheme)scheme, to_byte_rows[i].index) ==
                     to_byte_rows[i].by_scheme[scheme],
                 "to_byte_idx", scheme, to_byte_rows[i].index);
    str_rope_free(&rope);
}

static void boundaries(void)
{
    str_rope rope = WITH(breaks);
    for (size_t at = 0; at < sizeof boundary_marks - 1; at++)
        same(str_rope_is_char_boundary(&rope, at) == (boundary_marks[at] == '1'), "is_char_boundary", at, 0);
    same(!str_rope_is_char_boundary(&rope, MOST), "is_char_boundary", MOST, 0);
    str_rope_free(&rope);
}

/* The empty text, which is a handle of zeros. */
static void ask_the_empty_text(str_rope *rope)
{
    str_indices_position begin = {0, 0}, behind = {0, 1};
    for (size_t i = 0; i < SCHEMES; i++) {
        str_indices_scheme scheme = (str_indices_scheme)i;
        same(str_rope_count(rope, scheme) == 0 && str_rope_from_byte_idx(rope, scheme, 9) == 0 &&
                 str_rope_to_byte_idx(rope, scheme, 9) == 0,
             "no text, by scheme", i, 0);
    }
    for (size_t i = 0; i < ENCODINGS * KINDS; i++) {
        str_indices_line_type type = line_types[i / ENCODINGS];
        str_indices_encoding encoding = encodings[i % ENCODINGS];
        str_indices_position end = str_rope_position_of(rope, type, encoding, 9);
        str_indices_bytes bytes = str_rope_line(rope, type, 9);
        same(end.line == 0 && end.character == 0 && str_rope_byte_of(rope, type, encoding, behind) == 0 &&
                 str_rope_exact_byte_of(rope, type, encoding, begin) == 0 &&
                 str_rope_exact_byte_of(rope, type, encoding, behind) == NONE,
             "no text, positions", i, 0);
        end = str_rope_exact_position_of(rope, type, encoding, 1);
        same(end.line == NONE && end.character == NONE, "no text, exact_position_of", i, 0);
        same(bytes.start == 0 && bytes.end == 0 && str_rope_line_end(rope, type, 9) == 0, "no text, lines", i, 0);
    }
    same(str_rope_len(rope) == 0, "no text, len", 0, 0);
    same(str_rope_is_char_boundary(rope, 0) && !str_rope_is_char_boundary(rope, 1), "no text, is_char_boundary", 0, 0);
}

static void change_the_empty_text(str_rope *rope)
{
    char byte = '?';
    same(str_rope_read(rope, 0, &byte, 1) == 0 && byte == '?', "no text, read", 0, 0);
    same(str_rope_copy_to(rope, 0, 0, &byte, 0) == STR_ROPE_OK, "no text, copy_to", 0, 0);
    same(str_rope_copy_to(rope, 0, 1, &byte, 1) == STR_ROPE_NOT_BOUNDARY && byte == '?', "no text, copy_to", 0, 1);
    same(str_rope_insert(rope, 0, "", 0) == STR_ROPE_OK, "no text, insert", 0, 0);
    same(str_rope_insert(rope, 1, "", 0) == STR_ROPE_NOT_BOUNDARY, "no text, insert", 1, 0);
    same(str_rope_remove(rope, 0, 0) == STR_ROPE_OK, "no text, remove", 0, 0);
    same(str_rope_remove(rope, 0, 1) == STR_ROPE_NOT_BOUNDARY, "no text, remove", 0, 1);
    same(str_rope_remove(rope, 1, 0) == STR_ROPE_NOT_ORDERED, "no text, remove", 1, 0);
    same(str_rope_replace(rope, 0, 0, "", 0) == STR_ROPE_OK, "no text, replace", 0, 0);
    same(str_rope_assign(rope, "", 0) == STR_ROPE_OK, "no text, assign", 0, 0);
    HAS(rope, "", "no text");
}

static void the_empty_text(void)
{
    static str_rope in_no_call;
    str_rope rope = STR_ROPE_EMPTY, other = STR_ROPE_EMPTY, zeroed;
    memset(&zeroed, 0, sizeof zeroed);
    ask_the_empty_text(&in_no_call);
    ask_the_empty_text(&rope);
    ask_the_empty_text(&zeroed);
    change_the_empty_text(&rope);
    same(str_rope_append(&rope, &other) == STR_ROPE_OK, "no text, append", 0, 0);
    same(str_rope_split_off(&rope, 0, &other) == STR_ROPE_OK, "no text, split_off", 0, 0);
    same(str_rope_split_off(&rope, 1, &other) == STR_ROPE_NOT_BOUNDARY, "no text, split_off", 1, 0);
    same(str_rope_snapshot(&rope, &other) == STR_ROPE_OK, "no text, snapshot", 0, 0);
    same(rope.hidden == NULL && other.hidden == NULL, "no text takes no memory", 0, 0);
    str_rope_free(&rope);
    str_rope_free(&rope);
    rope = WITH(breaks);
    str_rope_free(&rope);
    ask_the_empty_text(&rope);
}

static void changes(void)
{
    str_rope rope = STR_ROPE_EMPTY, rest = STR_ROPE_EMPTY;
    same(str_rope_insert(&rope, 0, "ad", 2) == STR_ROPE_OK, "insert", 0, 2);
    same(str_rope_insert(&rope, 1, "b\0c", 3) == STR_ROPE_OK, "insert", 1, 3);
    HAS(&rope, "ab\0cd", "insert");
    same(str_rope_insert(&rope, 5, "e\314\201", 3) == STR_ROPE_OK, "insert", 5, 3);
    same(str_rope_insert(&rope, 6, "\360\237\220\270", 4) == STR_ROPE_OK, "insert between e and its accent", 6, 4);
    HAS(&rope, "ab\0cde\360\237\220\270\314\201", "insert");
    same(str_rope_remove(&rope, 2, 3) == STR_ROPE_OK, "remove", 2, 3);
    same(str_rope_replace(&rope, 5, 9, "\r\n", 2) == STR_ROPE_OK, "replace", 5, 9);
    HAS(&rope, "abcde\r\n\314\201", "replace");
    same(str_rope_split_off(&rope, 6, &rest) == STR_ROPE_OK, "split_off", 6, 0);
    HAS(&rope, "abcde\r", "split_off");
    HAS(&rest, "\n\314\201", "split_off's rest");
    same(str_rope_append(&rest, &rope) == STR_ROPE_OK, "append", 3, 6);
    HAS(&rest, "\n\314\201abcde\r", "append");
    HAS(&rope, "", "append's other");
    same(str_rope_split_off(&rest, 3, &rope) == STR_ROPE_OK && str_rope_split_off(&rest, 1, &rope) == STR_ROPE_OK,
         "split_off into a text", 3, 1);
    HAS(&rope, "\314\201", "split_off into a text");
    same(str_rope_assign(&rope, "new", 3) == STR_ROPE_OK, "assign", 3, 0);
    HAS(&rope, "new", "assign");
    same(str_rope_assign_utf8(&rope, "ab", 2) == STR_ROPE_OK, "assign_utf8", 2, 0);
    same(str_rope_insert_utf8(&rope, 1, "\303\251", 2) == STR_ROPE_OK, "insert_utf8", 1, 2);
    same(str_rope_replace_utf8(&rope, 3, 4, "\r\n", 2) == STR_ROPE_OK, "replace_utf8", 3, 4);
    HAS(&rope, "a\303\251\r\n", "text that is known to be UTF-8");
    str_rope_free(&rope);
    str_rope_free(&rest);
}

/* A second text, and what a change of either leaves of the other. */
static void snapshots(void)
{
    str_rope rope = WITH(lines), copy = WITH("former"), none = STR_ROPE_EMPTY;
    same(str_rope_snapshot(&rope, &copy) == STR_ROPE_OK, "snapshot", 15, 6);
    HAS(&rope, lines, "snapshot");
    HAS(&copy, lines, "snapshot's copy");
    same(str_rope_insert(&rope, 1, "b", 1) == STR_ROPE_OK, "insert beside a snapshot", 1, 1);
    same(str_rope_remove(&copy, 3, 15) == STR_ROPE_OK, "remove beside a snapshot", 3, 15);
    HAS(&rope, "ab\r\n" FROG "b\r\343\201\233\n\nx", "a text beside its snapshot");
    HAS(&copy, "a\r\n", "a snapshot beside its text");
    same(str_rope_snapshot(&copy, &none) == STR_ROPE_OK, "snapshot of a snapshot", 3, 0);
    str_rope_free(&copy);
    HAS(&none, "a\r\n", "a snapshot whose text is freed");
    same(str_rope_snapshot(&copy, &none) == STR_ROPE_OK && none.hidden == NULL, "snapshot of no text", 0, 3);
    str_rope_free(&rope);
}

/* Each refusal where what would be refused later is wrong too, and what it leaves. */
static void refusals_of_changes(void)
{
    static const char text[] = "a\360\237\220\270b";
    str_rope rope = WITH(text), rest = WITH("rest");
    same(str_rope_assign(&rope, "\355\240\200", 3) == STR_ROPE_NOT_UTF8, "assign", 3, 0);
    same(str_rope_insert(&rope, 2, "\343\201", 2) == STR_ROPE_NOT_UTF8, "insert", 2, 2);
    same(str_rope_insert(&rope, 99, "\200", 1) == STR_ROPE_NOT_UTF8, "insert", 99, 1);
    same(str_rope_insert(&rope, 2, "x", 1) == STR_ROPE_NOT_BOUNDARY, "insert", 2, 1);
    same(str_rope_insert(&rope, 2, "", 0) == STR_ROPE_NOT_BOUNDARY, "insert of nothing", 2, 0);
    same(str_rope_insert(&rope, 7, "x", 1) == STR_ROPE_NOT_BOUNDARY, "insert", 7, 1);
    same(str_rope_insert_utf8(&rope, 2, "x", 1) == STR_ROPE_NOT_BOUNDARY, "insert_utf8", 2, 1);
    same(str_rope_remove(&rope, 3, 2) == STR_ROPE_NOT_ORDERED, "remove", 3, 2);
    same(str_rope_remove(&rope, 3, 5) == STR_ROPE_NOT_BOUNDARY, "remove", 3, 5);
    same(str_rope_remove(&rope, 1, 7) == STR_ROPE_NOT_BOUNDARY, "remove", 1, 7);
    same(str_rope_remove(&rope, 3, 3) == STR_ROPE_NOT_BOUNDARY, "remove of nothing", 3, 3);
    same(str_rope_replace(&rope, 3, 2, "\300\200", 2) == STR_ROPE_NOT_UTF8, "replace", 3, 2);
    same(str_rope_replace(&rope, MOST, 2, "x", 1) == STR_ROPE_NOT_ORDERED, "replace", MOST, 2);
    same(str_rope_replace(&rope, 1, 4, "x", 1) == STR_ROPE_NOT_BOUNDARY, "replace", 1, 4);
    same(str_rope_replace(&rope, 0, MOST, "x", 1) == STR_ROPE_NOT_BOUNDARY, "replace", 0, MOST);
    same(str_rope_replace_utf8(&rope, MOST, 2, "x", 1) == STR_ROPE_NOT_ORDERED, "replace_utf8", MOST, 2);
    same(str_rope_split_off(&rope, 4, &rest) == STR_ROPE_NOT_BOUNDARY, "split_off", 4, 0);
    same(str_rope_split_off(&rope, 7, &rest) == STR_ROPE_NOT_BOUNDARY, "split_off", 7, 0);
    HAS(&rope, text, "what refusals leave");
    HAS(&rest, "rest", "what a refusal leaves of the rest");
    str_rope_free(&rope);
    str_rope_free(&rest);
}

static void reading(void)
{
    static const char text[] = "a\360\237\220\270b";
    char out[8] = "???????";
    str_rope rope = WITH(text);
    same(str_rope_read(&rope, 1, out, 8) == 5 && memcmp(out, "\360\237\220\270b??", 8) == 0, "read", 1, 8);
    same(str_rope_read(&rope, 0, out, 1) == 1 && memcmp(out, "a\237\220\270b??", 8) == 0, "read", 0, 1);
    same(str_rope_read(&rope, 0, out, 0) == 0 && str_rope_read(&rope, 6, out, 8) == 0, "read", 6, 8);
    same(str_rope_read(&rope, MOST, out, 8) == 0 && memcmp(out, "a\237\220\270b??", 8) == 0, "read", MOST, 8);
    memcpy(out, "???????", 8);
    same(str_rope_copy_to(&rope, 5, 1, out, 0) == STR_ROPE_NOT_ORDERED, "copy_to", 5, 1);
    same(str_rope_copy_to(&rope, 1, 4, out, 0) == STR_ROPE_NOT_BOUNDARY, "copy_to", 1, 4);
    same(str_rope_copy_to(&rope, 1, 7, out, 8) == STR_ROPE_NOT_BOUNDARY, "copy_to", 1, 7);
    same(str_rope_copy_to(&rope, 1, 5, out, 3) == STR_ROPE_TOO_LONG, "copy_to", 1, 5);
    same(memcmp(out, "???????", 8) == 0, "what refusals leave of the room", 0, 0);
    same(str_rope_copy_to(&rope, 1, 5, out, 4) == STR_ROPE_OK, "copy_to", 1, 5);
    same(memcmp(out, "\360\237\220\270???", 8) == 0, "copy_to", 1, 5);
    same(str_rope_copy_to(&rope, 5, 6, out, 8) == STR_ROPE_OK && memcmp(out, "b\237\220\270???", 8) == 0, "copy_to", 5,
         6);
    str_rope_free(&rope);
}

/* Two texts that do not fit into one chunk, the first ends in CR and the second begins with LF. */
static void a_break_over_two_chunks(void)
{
    enum { HALF = STR_ROPE_MAX_CHUNK };
    static char front[HALF], back[HALF], whole[2 * HALF];
    static const size_t wanted[SCHEMES] = {2 * HALF, 2 * HALF, 1, 1, 1};
    str_rope rope, rest;
    memset(front, 'a', HALF);
    memset(back, 'b', HALF);
    front[HALF - 1] = '\r';
    back[0] = '\n';
    memcpy(whole, front, HALF);
    memcpy(whole + HALF, back, HALF);
    rope = with(front, HALF);
    rest = with(back, HALF);
    same(str_rope_append(&rope, &rest) == STR_ROPE_OK, "append", HALF, HALF);
    has(&rope, whole, 2 * HALF, "append");
    for (size_t i = 0; i < SCHEMES; i++)
        same(str_rope_count(&rope, (str_indices_scheme)i) == wanted[i], "count", i, wanted[i]);
    same(str_rope_from_byte_idx(&rope, STR_INDICES_CRLF, HALF) == 0, "from_byte_idx", HALF, 0);
    same(str_rope_from_byte_idx(&rope, STR_INDICES_CRLF, HALF + 1) == 1, "from_byte_idx", HALF + 1, 1);
    same(str_rope_to_byte_idx(&rope, STR_INDICES_CRLF, 1) == HALF + 1, "to_byte_idx", 1, HALF + 1);
    same(str_rope_line_end(&rope, STR_INDICES_LINE_TYPE_CRLF, 0) == HALF - 1, "line_end", 0, HALF - 1);
    same(str_rope_insert(&rope, HALF, "x", 1) == STR_ROPE_OK && str_rope_count(&rope, STR_INDICES_CRLF) == 2, "insert",
         1, 2);
    same(str_rope_remove(&rope, HALF, HALF + 1) == STR_ROPE_OK && str_rope_count(&rope, STR_INDICES_CRLF) == 1,
         "remove", 1, 1);
    same(str_rope_split_off(&rope, HALF, &rest) == STR_ROPE_OK, "split_off", HALF, 0);
    same(str_rope_count(&rope, STR_INDICES_CRLF) == 1 && str_rope_count(&rest, STR_INDICES_CRLF) == 1, "count", 1, 1);
    str_rope_free(&rope);
    str_rope_free(&rest);
}

/*
 * Lines and positions.
 */

static void positions(void)
{
    str_rope rope = WITH(lines);
    ask_for_positions(&rope);
    str_rope_free(&rope);
}

/* Each line begins where the search by its scheme says. */
static void lines_in_order(const str_rope *rope, size_t kind)
{
    str_indices_scheme scheme = (str_indices_scheme)line_types[kind];
    size_t line = 0, start = 0;
    while (start < str_rope_len(rope)) {
        same(start == line_rows_by_kind[line][kind].start, "lines in order", scheme, line);
        start = str_rope_to_byte_idx(rope, scheme, ++line);
    }
    same(start == line_rows_by_kind[line][kind].end, "the end of the last line", scheme, line);
}

static void lines_by_kind(void)
{
    str_rope rope = WITH(kinds);
    ask_by_kind(&rope);
    for (size_t kind = 0; kind <= KINDS; kind++)
        lines_in_order(&rope, kind);
    str_rope_free(&rope);
}

static void changes_by_positions(void)
{
    static const char text[] = "ab\r\n" FROG "c";
    static const struct {
        str_indices_range range;
        const char *text, *left[ENCODINGS + 1];
    } rows[] = {
        {{{1, 0}, {1, 2}}, "X", {"ab\r\nXc", "ab\r\nX" FROG "c", "ab\r\nX", "ab\r\nX"}},
        {{{1, 2}, {1, 4}}, "", {"ab\r\n" FROG, "ab\r\nc", text, text}},
        {{{1, 1}, {1, 1}}, "x", {"ab\r\nx" FROG "c", "ab\r\nx" FROG "c", "ab\r\n" FROG "xc", "ab\r\n" FROG "xc"}},
        {{{0, 9}, {0, 9}}, "!", {"ab!\r\n" FROG "c", "ab!\r\n" FROG "c", "ab!\r\n" FROG "c", "ab!\r\n" FROG "c"}},
        {{{0, 2}, {1, 0}}, "", {"ab" FROG "c", "ab" FROG "c", "ab" FROG "c", "ab" FROG "c"}},
        {{{7, 0}, {9, 9}}, "\n", {"ab\r\n" FROG "c\n", "ab\r\n" FROG "c\n", "ab\r\n" FROG "c\n", "ab\r\n" FROG "c\n"}},
    };
    for (size_t i = 0; i < NUMBER_OF(rows); i++)
        for (size_t encoding = 0; encoding <= ENCODINGS; encoding++) {
            const char *put = rows[i].text, *left = rows[i].left[encoding];
            str_rope rope = WITH(text), known = WITH(text);
            same(str_rope_change(&rope, encodings[encoding], rows[i].range, put, strlen(put)) == STR_ROPE_OK, "change",
                 encoding, i);
            has(&rope, left, strlen(left), "change");
            same(str_rope_change_utf8(&known, encodings[encoding], rows[i].range, put, strlen(put)) == STR_ROPE_OK,
                 "change_utf8", encoding, i);
            has(&known, left, strlen(left), "change_utf8");
            str_rope_free(&rope);
            str_rope_free(&known);
        }
}

/* The same changes, where a position that names no place is refused: by hand, from the rows above and bytes_of_positions. */
static void exact_changes(void)
{
    static const char text[] = "ab\r\n" FROG "c";
    static const struct {
        str_indices_range range;
        const char *text, *left[ENCODINGS + 1]; /* no text where it is refused */
    } rows[] = {
        {{{1, 0}, {1, 2}}, "X", {"ab\r\nXc", NULL, "ab\r\nX", "ab\r\nX"}},
        {{{1, 2}, {1, 4}}, "", {NULL, NULL, NULL, NULL}},
        {{{1, 1}, {1, 1}}, "x", {NULL, NULL, "ab\r\n" FROG "xc", "ab\r\n" FROG "xc"}},
        {{{1, 0}, {1, 4}}, "", {NULL, "ab\r\nc", NULL, NULL}},
        {{{0, 9}, {0, 9}}, "!", {NULL, NULL, NULL, NULL}},
        {{{0, 2}, {1, 0}}, "", {"ab" FROG "c", "ab" FROG "c", "ab" FROG "c", "ab" FROG "c"}},
        {{{0, 0}, {2, 0}}, "", {NULL, NULL, NULL, NULL}},
    };
    for (size_t i = 0; i < NUMBER_OF(rows); i++)
        for (size_t encoding = 0; encoding <= ENCODINGS; encoding++) {
            const char *put = rows[i].text, *left = rows[i].left[encoding];
            str_rope rope = WITH(text);
            str_rope_status wanted = left ? STR_ROPE_OK : STR_ROPE_NOT_BOUNDARY;
            same(str_rope_change_exact(&rope, encodings[encoding], rows[i].range, put, strlen(put)) == wanted,
                 "change_exact", encoding, i);
            has(&rope, left ? left : text, strlen(left ? left : text), "change_exact");
            str_rope_free(&rope);
        }
}

static void refusals_by_positions(void)
{
    str_indices_range back = {{1, 0}, {0, 1}}, forth = {{0, 0}, {1, 0}};
    str_rope rope = WITH(lines);
    same(str_rope_change(&rope, STR_INDICES_ENCODING_UTF16, back, "\200", 1) == STR_ROPE_NOT_UTF8, "change", 1, 0);
    same(str_rope_change(&rope, STR_INDICES_ENCODING_UTF8, back, "x", 1) == STR_ROPE_NOT_ORDERED, "change", 1, 0);
    same(str_rope_change_utf8(&rope, STR_INDICES_ENCODING_UTF8, back, "x", 1) == STR_ROPE_NOT_ORDERED, "change_utf8", 1,
         0);
    same(str_rope_change(&rope, STR_INDICES_ENCODING_UTF32, forth, "\343\201", 2) == STR_ROPE_NOT_UTF8, "change", 0, 1);
    same(str_rope_change_exact(&rope, STR_INDICES_ENCODING_UTF16, back, "\200", 1) == STR_ROPE_NOT_UTF8, "change_exact",
         1, 0);
    same(str_rope_change_exact(&rope, STR_INDICES_ENCODING_UTF8, back, "x", 1) == STR_ROPE_NOT_ORDERED, "change_exact",
         1, 0);
    HAS(&rope, lines, "what refusals leave");
    str_rope_free(&rope);
}

/* The chunks of a text in order, each lent with where it starts. */
static void lent_chunks(void)
{
    static char text[4 * STR_ROPE_MAX_CHUNK];
    str_rope_chunk chunk = {NULL, 9, 9};
    str_rope rope = STR_ROPE_EMPTY;
    size_t at = 0;
    same(!str_rope_chunk_at(&rope, 0, &chunk) && chunk.len == 0 && chunk.start == 0, "no text, chunk_at", 0, 0);
    memset(text, 'a', sizeof text);
    rope = with(text, sizeof text);
    for (; str_rope_chunk_at(&rope, at, &chunk); at += chunk.len)
        same(chunk.start == at && 0 < chunk.len && chunk.len <= STR_ROPE_MAX_CHUNK &&
                 memcmp(chunk.text, text, chunk.len) == 0,
             "chunk_at", at, chunk.len);
    same(at == sizeof text && chunk.len == 0 && !str_rope_chunk_at(&rope, MOST, &chunk), "chunk_at", at, MOST);
    same(str_rope_chunk_at(&rope, sizeof text - 1, &chunk) && chunk.start + chunk.len == sizeof text, "chunk_at",
         sizeof text - 1, 0);
    str_rope_free(&rope);
}

static size_t end_of(str_rope_chunk chunk)
{
    return chunk.start + chunk.len;
}

static int is_lent(str_rope_chunk chunk, const char *text)
{
    return 0 < chunk.len && chunk.len <= STR_ROPE_MAX_CHUNK && memcmp(chunk.text, text + chunk.start, chunk.len) == 0;
}

/* A list of chunks in order from a byte on: `count` of a room for SOME, of which the others have no byte. */
enum { SOME = 5, CHUNKS = 70 };

static void chunks_on(const str_rope *rope, const char *text, size_t len)
{
    str_rope_chunk chunks[SOME];
    size_t at = 0, count, i;
    while ((count = str_rope_chunks_at(rope, at, chunks, SOME)) != 0) {
        for (i = 0; i < SOME; i++) {
            same(i < count ? is_lent(chunks[i], text) && chunks[i].start == at : chunks[i].len == 0, "chunks_at", at,
                 i);
            at = i < count ? end_of(chunks[i]) : at;
        }
        same(count == SOME || at == len, "chunks_at, how many", at, count);
    }
    same(at == len, "chunks_at, the end", at, len);
}

/* The same backwards. */
static void chunks_back(const str_rope *rope, const char *text, size_t len)
{
    str_rope_chunk chunks[SOME];
    size_t at = len, count, i;
    while ((count = str_rope_chunks_before(rope, at, chunks, SOME)) != 0) {
        for (i = 0; i < SOME; i++) {
            same(i < count ? is_lent(chunks[i], text) && end_of(chunks[i]) == at : chunks[i].len == 0, "chunks_before",
                 at, i);
            at = i < count ? chunks[i].start : at;
        }
        same(count == SOME || at == 0, "chunks_before, how many", at, count);
    }
    same(at == 0, "chunks_before, the beginning", at, len);
}

/* Lists of chunks from a byte inside one of them, past the end, without room, and of no text. */
static void chunks_round(const str_rope *rope, const char *text, size_t len)
{
    str_rope_chunk chunks[SOME], last;
    same(str_rope_chunk_at(rope, len - 1, &last), "the last chunk", len, 0);
    same(str_rope_chunks_at(rope, len - 1, chunks, SOME) == 1 && chunks[0].start == last.start, "the last", len - 1, 0);
    same(str_rope_chunks_at(rope, len, chunks, SOME) == 0 && chunks[0].len == 0, "chunks_at the end", len, 0);
    same(str_rope_chunks_at(rope, MOST, chunks, SOME) == 0 && chunks[4].len == 0, "chunks_at", MOST, 0);
    same(str_rope_chunks_before(rope, 1, chunks, SOME) == 1 && is_lent(chunks[0], text), "chunks_before", 1, 0);
    same(str_rope_chunks_before(rope, 0, chunks, SOME) == 0 && chunks[0].len == 0, "chunks_before", 0, 0);
    same(str_rope_chunks_before(rope, MOST, chunks, 1) == 1 && end_of(chunks[0]) == len, "chunks_before", MOST, 1);
    same(str_rope_chunks_at(rope, 0, NULL, 0) == 0 && str_rope_chunks_before(rope, len, NULL, 0) == 0, "no room", 0, 0);
}

static void lists_of_chunks(void)
{
    static char text[CHUNKS * STR_ROPE_MAX_CHUNK];
    str_rope_chunk chunks[SOME];
    str_rope rope = STR_ROPE_EMPTY;
    same(str_rope_chunks_at(&rope, 0, chunks, SOME) == 0 && chunks[0].len == 0 && chunks[4].len == 0, "no text", 0, 0);
    same(str_rope_chunks_before(&rope, 0, chunks, SOME) == 0 && chunks[4].len == 0, "before no text", 0, 0);
    same(str_rope_chunks_before(&rope, MOST, chunks, SOME) == 0 && chunks[0].start == 0, "before no text", MOST, 0);
    for (size_t i = 0; i < sizeof text; i++)
        text[i] = (char)('a' + i / 7 % 26);
    rope = with(text, sizeof text);
    chunks_on(&rope, text, sizeof text);
    chunks_back(&rope, text, sizeof text);
    chunks_round(&rope, text, sizeof text);
    str_rope_free(&rope);
}

/* A null pointer with no byte behind it is the empty text, or a room for none. */
static void null_texts(void)
{
    static const char text[] = "ab";
    str_indices_range range = {{0, 1}, {0, 2}};
    str_rope rope = WITH(text);
    same(str_rope_insert(&rope, 1, NULL, 0) == STR_ROPE_OK, "insert null", 1, 0);
    same(str_rope_insert_utf8(&rope, 1, NULL, 0) == STR_ROPE_OK, "insert_utf8 null", 1, 0);
    same(str_rope_read(&rope, 0, NULL, 0) == 0, "read into null", 0, 0);
    same(str_rope_copy_to(&rope, 1, 1, NULL, 0) == STR_ROPE_OK, "copy_to null", 1, 1);
    same(str_rope_copy_to(&rope, 0, 1, NULL, 0) == STR_ROPE_TOO_LONG, "copy_to null", 0, 1);
    HAS(&rope, "ab", "null texts");
    same(str_rope_change(&rope, STR_INDICES_ENCODING_UTF16, range, NULL, 0) == STR_ROPE_OK, "change to null", 1, 2);
    HAS(&rope, "a", "change to null");
    same(str_rope_change_exact(&rope, STR_INDICES_ENCODING_UTF8, range, NULL, 0) == STR_ROPE_NOT_BOUNDARY,
         "change_exact to null", 1, 2);
    same(str_rope_change_utf8(&rope, STR_INDICES_ENCODING_UTF16, range, NULL, 0) == STR_ROPE_OK, "change_utf8 to null",
         1, 2);
    same(str_rope_replace_utf8(&rope, 1, 1, NULL, 0) == STR_ROPE_OK, "replace_utf8 by null", 1, 1);
    HAS(&rope, "a", "replace_utf8 by null");
    same(str_rope_replace(&rope, 0, 1, NULL, 0) == STR_ROPE_OK, "replace by null", 0, 1);
    same(str_rope_assign(&rope, NULL, 0) == STR_ROPE_OK, "assign null", 0, 0);
    same(str_rope_assign_utf8(&rope, NULL, 0) == STR_ROPE_OK, "assign_utf8 null", 0, 0);
    HAS(&rope, "", "assign null");
    str_rope_free(&rope);
    str_rope_free(NULL);
}

/* A null pointer that is said to have bytes is refused, before all else, and the text stays. */
static void null_texts_with_bytes(void)
{
    str_indices_range back = {{1, 0}, {0, 0}};
    str_rope rope = WITH("ab");
    same(str_rope_assign(&rope, NULL, 14) == STR_ROPE_NULL_TEXT, "assign null", 14, 0);
    same(str_rope_assign_utf8(&rope, NULL, 1) == STR_ROPE_NULL_TEXT, "assign_utf8 null", 1, 0);
    same(str_rope_insert(&rope, 9, NULL, MOST) == STR_ROPE_NULL_TEXT, "insert null", 9, MOST);
    same(str_rope_insert_utf8(&rope, 1, NULL, 1) == STR_ROPE_NULL_TEXT, "insert_utf8 null", 1, 1);
    same(str_rope_replace(&rope, 2, 1, NULL, 1) == STR_ROPE_NULL_TEXT, "replace by null", 2, 1);
    same(str_rope_replace_utf8(&rope, 0, 1, NULL, 1) == STR_ROPE_NULL_TEXT, "replace_utf8 by null", 0, 1);
    same(str_rope_change(&rope, STR_INDICES_ENCODING_UTF16, back, NULL, 1) == STR_ROPE_NULL_TEXT, "change to null", 1,
         0);
    same(str_rope_change_exact(&rope, STR_INDICES_ENCODING_UTF8, back, NULL, 1) == STR_ROPE_NULL_TEXT,
         "change_exact to null", 1, 0);
    same(str_rope_change_utf8(&rope, STR_INDICES_ENCODING_UTF16, back, NULL, 1) == STR_ROPE_NULL_TEXT,
         "change_utf8 to null", 1, 0);
    HAS(&rope, "ab", "null texts with bytes");
    str_rope_free(&rope);
}

/* Bytes that are not UTF-8 make no text, but the calls that do not check them end, and so does the free. */
static void wrong_bytes_end(void)
{
    static const char *const wrong[] = {"\200", "a\200", "a\200\200\200\200", "\360", "\303\200\200"};
    static char bytes[5 * STR_ROPE_MAX_CHUNK];
    for (size_t i = 0; i < NUMBER_OF(wrong); i++)
        for (size_t len = STR_ROPE_MAX_CHUNK; len <= sizeof bytes; len += len == STR_ROPE_MAX_CHUNK ? 1 : 509) {
            str_rope rope = STR_ROPE_EMPTY;
            for (size_t at = 0; at < len; at++)
                bytes[at] = wrong[i][at % strlen(wrong[i])];
            same(str_rope_assign_utf8(&rope, bytes, len) == STR_ROPE_OK && str_rope_len(&rope) == len,
                 "assign_utf8 of wrong bytes", i, len);
            str_rope_free(&rope);
        }
}

/* Two handles that are one. */
static void one_handle(void)
{
    str_rope rope = WITH(lines);
    same(str_rope_snapshot(&rope, &rope) == STR_ROPE_OK, "snapshot of one handle", 0, 0);
    same(str_rope_append(&rope, &rope) == STR_ROPE_SAME_HANDLE, "append one handle", 0, 0);
    same(str_rope_split_off(&rope, 1, &rope) == STR_ROPE_SAME_HANDLE, "split_off one handle", 1, 0);
    HAS(&rope, lines, "one handle");
    str_rope_free(&rope);
}

/* Each status has words of its own, and the library its header's version, as a text and as numbers. */
static void words_and_version(void)
{
    char numbers[64];
    for (int status = STR_ROPE_OK; status <= STR_ROPE_NULL_TEXT + 1; status++)
        for (int other = STR_ROPE_OK; other < status; other++)
            same(strcmp(str_rope_status_text((str_rope_status)status), str_rope_status_text((str_rope_status)other)) !=
                     0,
                 "status_text", (size_t)status, (size_t)other);
    same(strcmp(str_rope_version(), STR_ROPE_VERSION) == 0, "version", 0, 0);
    snprintf(numbers, sizeof numbers, "%d.%d.%d", STR_ROPE_VERSION_NUMBER / 1000000,
             STR_ROPE_VERSION_NUMBER / 1000 % 1000, STR_ROPE_VERSION_NUMBER % 1000);
    same(strcmp(numbers, STR_ROPE_VERSION) == 0, "version by its number", 0, 0);
}

int main(void)
{
    counts();
    from_bytes();
    to_bytes();
    boundaries();
    the_empty_text();
    changes();
    snapshots();
    refusals_of_changes();
    reading();
    a_break_over_two_chunks();
    positions();
    lines_by_kind();
    changes_by_positions();
    exact_changes();
    refusals_by_positions();
    lent_chunks();
    lists_of_chunks();
    null_texts();
    null_texts_with_bytes();
    wrong_bytes_end();
    one_handle();
    words_and_version();
    printf("%d passed, %d failed\n", passed, failed);
    return failed != 0;
}
