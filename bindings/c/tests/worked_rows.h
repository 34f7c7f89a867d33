/*
 * Worked answers of what counts, converts and knows positions, for a plain
 * text, a rope and an index: three texts, and rows of what is asked and
 * answered. The fields of a row are in the order in which the headers number
 * schemes and encodings, and the last is for a number above these.
 */
#ifndef WORKED_ROWS_H
#define WORKED_ROWS_H

#include <stddef.h>
#include <stdint.h>

#include <str_indices_positions.h>

/* Two UTF-16 code units, four bytes. */
#define FROG "\360\237\220\270"

/* 17 bytes, 10 chars, 11 UTF-16 code units: CR LF, a surrogate pair, CR, a char
 * of three bytes, LF and LS. */
static const char breaks[] = "a\r\n" FROG "b\r\343\201\233\n\342\200\250x";

/* A line that ends in CR LF, one with a surrogate pair that ends in CR, one of
 * a char of three bytes, an empty one, and one that no break ends. */
static const char lines[] = "a\r\n" FROG "b\r\343\201\233\n\nx";

/* A break of each kind: LS, FF, CR, CR LF and LF between letters. */
static const char kinds[] = "a\342\200\250b\fc\rd\r\ne\nf";

/* No index is as great; and the answer where a position names no place. */
#define MOST SIZE_MAX
#define NONE SIZE_MAX

/* The number of schemes, which the header counts from 0 to this one. In the order of the rows the encodings and the kinds of
 * line break, each with a number past them. */
enum { SCHEMES = STR_INDICES_LINES + 1, ENCODINGS = 3, KINDS = 3 };
static const str_indices_encoding encodings[ENCODINGS + 1] = {STR_INDICES_ENCODING_UTF16, STR_INDICES_ENCODING_UTF8,
                                                              STR_INDICES_ENCODING_UTF32, (str_indices_encoding)6};
static const str_indices_line_type line_types[KINDS + 1] = {STR_INDICES_LINE_TYPE_CRLF, STR_INDICES_LINE_TYPE_LF,
                                                            STR_INDICES_LINE_TYPE_LINES, (str_indices_line_type)5};
#define NUMBER_OF(rows) (sizeof rows / sizeof rows[0])

/*
 * Of `breaks`.
 */

static const size_t counted[SCHEMES + 1] = {10, 11, 2, 3, 4, 4};

static const struct {
    size_t byte, by_scheme[SCHEMES + 1];
} from_byte_rows[] = {
    {0, {0, 0, 0, 0, 0, 0}},   {2, {2, 2, 0, 0, 0, 0}},    {3, {3, 3, 1, 1, 1, 1}},    {5, {3, 3, 1, 1, 1, 1}},
    {7, {4, 5, 1, 1, 1, 1}},   {9, {6, 7, 1, 2, 2, 2}},    {13, {8, 9, 2, 3, 3, 3}},   {15, {8, 9, 2, 3, 3, 3}},
    {16, {9, 10, 2, 3, 4, 4}}, {17, {10, 11, 2, 3, 4, 4}}, {18, {10, 11, 2, 3, 4, 4}}, {MOST, {10, 11, 2, 3, 4, 4}},
};

static const struct {
    size_t index, by_scheme[SCHEMES + 1];
} to_byte_rows[] = {
    {0, {0, 0, 0, 0, 0, 0}},       {1, {1, 1, 3, 3, 3, 3}},        {2, {2, 2, 13, 9, 9, 9}},
    {3, {3, 3, 17, 13, 13, 13}},   {4, {7, 3, 17, 17, 16, 16}},    {5, {8, 7, 17, 17, 17, 17}},
    {9, {16, 13, 17, 17, 17, 17}}, {10, {17, 16, 17, 17, 17, 17}}, {MOST, {17, 17, 17, 17, 17, 17}},
};

/* Whether a byte is a boundary, with the end and one past it. */
static const char boundary_marks[] = "1111000111001100110";

/*
 * Of `lines`, by encoding. Its lines end as in the protocol.
 */

static const struct {
    size_t byte, line, character[ENCODINGS + 1];
} position_rows[] = {
    {0, 0, {0, 0, 0, 0}},  {1, 0, {1, 1, 1, 1}},  {2, 0, {1, 1, 1, 1}},  {3, 1, {0, 0, 0, 0}},
    {5, 1, {0, 0, 0, 0}},  {6, 1, {0, 0, 0, 0}},  {7, 1, {2, 4, 1, 1}},  {8, 1, {3, 5, 2, 2}},
    {9, 2, {0, 0, 0, 0}},  {11, 2, {0, 0, 0, 0}}, {12, 2, {1, 3, 1, 1}}, {13, 3, {0, 0, 0, 0}},
    {14, 4, {0, 0, 0, 0}}, {15, 4, {1, 1, 1, 1}}, {16, 4, {1, 1, 1, 1}}, {MOST, 4, {1, 1, 1, 1}},
};

static const struct {
    str_indices_position position;
    size_t byte[ENCODINGS + 1], exact[ENCODINGS + 1];
} byte_rows[] = {
    {{0, 0}, {0, 0, 0, 0}, {0, 0, 0, 0}},
    {{0, 1}, {1, 1, 1, 1}, {1, 1, 1, 1}},
    {{0, 2}, {1, 1, 1, 1}, {NONE, NONE, NONE, NONE}},
    {{0, MOST}, {1, 1, 1, 1}, {NONE, NONE, NONE, NONE}},
    {{1, 0}, {3, 3, 3, 3}, {3, 3, 3, 3}},
    {{1, 1}, {3, 3, 7, 7}, {NONE, NONE, 7, 7}},
    {{1, 2}, {7, 3, 8, 8}, {7, NONE, 8, 8}},
    {{1, 3}, {8, 3, 8, 8}, {8, NONE, NONE, NONE}},
    {{1, 4}, {8, 7, 8, 8}, {NONE, 7, NONE, NONE}},
    {{1, 5}, {8, 8, 8, 8}, {NONE, 8, NONE, NONE}},
    {{1, 9}, {8, 8, 8, 8}, {NONE, NONE, NONE, NONE}},
    {{2, 1}, {12, 9, 12, 12}, {12, NONE, 12, 12}},
    {{2, 2}, {12, 9, 12, 12}, {NONE, NONE, NONE, NONE}},
    {{2, 3}, {12, 12, 12, 12}, {NONE, 12, NONE, NONE}},
    {{3, 0}, {13, 13, 13, 13}, {13, 13, 13, 13}},
    {{3, 1}, {13, 13, 13, 13}, {NONE, NONE, NONE, NONE}},
    {{4, 1}, {15, 15, 15, 15}, {15, 15, 15, 15}},
    {{4, 2}, {15, 15, 15, 15}, {NONE, NONE, NONE, NONE}},
    {{5, 0}, {15, 15, 15, 15}, {NONE, NONE, NONE, NONE}},
    {{MOST, MOST}, {15, 15, 15, 15}, {NONE, NONE, NONE, NONE}},
};

static const struct {
    str_indices_range range;
    str_indices_bytes bytes[ENCODINGS + 1];
} range_rows[] = {
    {{{0, 0}, {0, 9}}, {{0, 1}, {0, 1}, {0, 1}, {0, 1}}},
    {{{1, 1}, {2, 2}}, {{3, 12}, {3, 9}, {7, 12}, {7, 12}}},
    {{{1, 2}, {1, 4}}, {{7, 8}, {3, 7}, {8, 8}, {8, 8}}},
    {{{9, 9}, {MOST, 0}}, {{15, 15}, {15, 15}, {15, 15}, {15, 15}}},
    {{{0, 2}, {0, 1}}, {{NONE, NONE}, {NONE, NONE}, {NONE, NONE}, {NONE, NONE}}},
    {{{1, 0}, {0, 9}}, {{NONE, NONE}, {NONE, NONE}, {NONE, NONE}, {NONE, NONE}}},
};

static const str_indices_bytes line_rows[] = {{0, 1}, {3, 8}, {9, 12}, {13, 13}, {14, 15}, {15, 15}};

/*
 * Of `kinds`, by what ends a line. Offsets are in UTF-16.
 */

static const str_indices_bytes line_rows_by_kind[][KINDS + 1] = {
    {{0, 7}, {0, 10}, {0, 1}, {0, 1}},        {{8, 9}, {11, 12}, {4, 5}, {4, 5}},
    {{11, 12}, {13, 14}, {6, 7}, {6, 7}},     {{13, 14}, {14, 14}, {8, 9}, {8, 9}},
    {{14, 14}, {14, 14}, {11, 12}, {11, 12}}, {{14, 14}, {14, 14}, {13, 14}, {13, 14}},
    {{14, 14}, {14, 14}, {14, 14}, {14, 14}},
};

/* A position that position_of returns, and whether exact_position_of returns it too. */
static const struct {
    size_t byte;
    struct {
        str_indices_position position;
        int is_exact;
    } by_kind[KINDS + 1];
} position_rows_by_kind[] = {
    {2, {{{0, 1}, 0}, {{0, 1}, 0}, {{0, 1}, 0}, {{0, 1}, 0}}},
    {5, {{{0, 3}, 1}, {{0, 3}, 1}, {{1, 1}, 1}, {{1, 1}, 1}}},
    {8, {{{1, 0}, 1}, {{0, 6}, 1}, {{3, 0}, 1}, {{3, 0}, 1}}},
    {10, {{{1, 1}, 0}, {{0, 8}, 1}, {{3, 1}, 0}, {{3, 1}, 0}}},
    {11, {{{2, 0}, 1}, {{1, 0}, 1}, {{4, 0}, 1}, {{4, 0}, 1}}},
    {15, {{{3, 1}, 0}, {{2, 1}, 0}, {{5, 1}, 0}, {{5, 1}, 0}}},
};

static const struct {
    str_indices_position position;
    size_t byte[KINDS + 1], exact[KINDS + 1];
} byte_rows_by_kind[] = {
    {{0, 3}, {5, 5, 1, 1}, {5, 5, NONE, NONE}},
    {{0, 8}, {7, 10, 1, 1}, {NONE, 10, NONE, NONE}},
    {{1, 9}, {9, 12, 5, 5}, {NONE, NONE, NONE, NONE}},
    {{4, 0}, {14, 14, 11, 11}, {NONE, NONE, 11, 11}},
};

static const struct {
    str_indices_range range;
    str_indices_bytes bytes[KINDS + 1];
} range_rows_by_kind[] = {
    {{{0, 1}, {1, 0}}, {{1, 8}, {1, 11}, {1, 4}, {1, 4}}},
    {{{0, 8}, {4, 0}}, {{7, 14}, {10, 14}, {1, 11}, {1, 11}}},
    {{{1, 0}, {0, 9}}, {{NONE, NONE}, {NONE, NONE}, {NONE, NONE}, {NONE, NONE}}},
};

#endif
