/*
 * An index beside a UTF-8 text that does not change. It counts the chars,
 * UTF-16 code units and line breaks of the text, and converts between those
 * indices, byte indices and the positions of the Language Server Protocol 3.17,
 * without going over the text.
 *
 * Each question is proved to answer by a definition, for every text, index and
 * position. Where str_indices.h or str_indices_positions.h has the question,
 * the answer is theirs for the whole text.
 *
 *     str_index *index;
 *     if (str_index_make(&index, text, len) != STR_INDEX_OK) ...
 *     size_t lines = str_index_count(index, STR_INDICES_CRLF) + 1;
 *     str_index_free(index);
 *
 * All indices are byte indices where nothing else is said, and begin at 0. A
 * char is a Unicode scalar value.
 *
 * The caller owes the following, which nothing checks:
 *
 *   - An index keeps the address of its text, and no copy. The `len` bytes from
 *     `text` on may be read, and no thread writes to them, from the call that
 *     makes the index until it is freed. A `text` that is null is the empty
 *     text, and with another `len` than 0 it is refused. That the bytes are
 *     UTF-8 is checked, but not by str_index_make_utf8.
 *   - An index that is handed over was made by a function whose name begins
 *     with str_index_make, which answered STR_INDEX_OK, and was not freed
 *     since. One that was made in memory of the caller's is there while that
 *     is, and nothing else is written to it. No pointer is null, but for that
 *     of an empty text and the one that str_index_free takes.
 *   - An index that str_index_make or str_index_make_utf8 has made is freed
 *     once, and in no other call meanwhile or afterwards.
 *   - Any number of threads may ask one index at once: a question writes
 *     nothing. Whatever frees it, or writes to its memory or its text, runs
 *     beside no question. Another thread may free an index than made it.
 *   - One allocator has calloc and free, and aligns a block as the C standard
 *     says.
 *   - An index is not made and not freed in a signal handler, or in the forked
 *     child of a process with threads.
 *
 * Where one of these is broken, what a call does is undefined. The library is
 * built for Linux on x86-64 processors from the level x86-64-v2 on (with
 * SSE4.2), and does not ask whether it runs on one.
 *
 * The cost of a call: marks stand in the text, one for each 1,024 bytes, with
 * the counts of what is before them. Making an index goes over the text once,
 * and once more before that to check that it is UTF-8; str_index_make_utf8
 * leaves that out. A count takes one step. A conversion from a byte looks at
 * two marks, and one to a byte halves the marks; each reads at most 1,028 bytes
 * of the text. At most, the end of a line takes one such conversion; a line,
 * the position of a byte, and that of one that is a place two; the byte of a
 * position three; an exact byte, and the positions of a span four; the bytes of
 * a range six.
 *
 * An index is one block of memory: 48 bytes for each mark, and 80 besides.
 */
#ifndef STR_INDEX_H
#define STR_INDEX_H

#include <stdbool.h>
#include <stddef.h>
#include <stdint.h> /* SIZE_MAX */

#include <str_indices_positions.h> /* the types of positions */

/* The version of the header. str_index_version tells that of the library. The
 * number is 1000000 times the first, 1000 times the second, and the third. */
#define STR_INDEX_VERSION "0.4.4"
#define STR_INDEX_VERSION_MAJOR 0
#define STR_INDEX_VERSION_MINOR 4
#define STR_INDEX_VERSION_PATCH 4
#define STR_INDEX_VERSION_NUMBER \
    (STR_INDEX_VERSION_MAJOR * 1000000 + STR_INDEX_VERSION_MINOR * 1000 + \
     STR_INDEX_VERSION_PATCH)

/* A status that nobody looks at is an index that may not be there. */
#if defined(__GNUC__)
#define STR_INDEX_CHECKED __attribute__((warn_unused_result))
#else
#define STR_INDEX_CHECKED
#endif

#ifdef __cplusplus
extern "C" {
#endif

/* An index. Its contents are the library's own. */
typedef struct str_index str_index;

/* Whether an index was made. */
typedef enum str_index_status {
    STR_INDEX_OK,        /* it was */
    STR_INDEX_NO_MEMORY, /* memory was refused */
    STR_INDEX_NOT_UTF8,  /* the bytes handed over are not UTF-8 */
    STR_INDEX_NO_ROOM,   /* the memory handed over has too few bytes */
    STR_INDEX_TOO_LONG,  /* `len` is above PTRDIFF_MAX */
    STR_INDEX_NULL_TEXT  /* `text` is NULL, and `len` is not 0 */
} str_index_status;

/* Says in English what a status means, by a text that stays as long as the
 * program. */
const char *str_index_status_text(str_index_status status);

/* The version of the library that runs, as STR_INDEX_VERSION has the header's.
 */
const char *str_index_version(void);

/*
 * The index.
 */

/* Makes the index of a text, for which `*index` then stands. It is NULL where
 * the status is another than STR_INDEX_OK. Takes time in the length of the
 * text. May answer STR_INDEX_NO_MEMORY, and then nothing is said of the bytes,
 * STR_INDEX_NOT_UTF8, STR_INDEX_TOO_LONG, and before them STR_INDEX_NULL_TEXT.
 */
STR_INDEX_CHECKED str_index_status str_index_make(str_index **index,
                                                  const char *text, size_t len);

/* Makes the index of a text as str_index_make does, but does not check the
 * bytes: it goes over the text once, and never answers STR_INDEX_NOT_UTF8. If
 * they are not UTF-8, what it and each later call with that index does is
 * undefined. It is for bindings of languages whose strings are UTF-8; in C you
 * should call str_index_make. */
STR_INDEX_CHECKED str_index_status str_index_make_utf8(str_index **index,
                                                       const char *text,
                                                       size_t len);

/* How many bytes the index of a text of `len` bytes takes: 80, and 48 for each
 * 1,024 bytes of the text. 0 where `len` is above PTRDIFF_MAX. */
size_t str_index_size(size_t len);

/* Makes the index of a text as str_index_make does, but in memory of the
 * caller's: the `size` bytes from `room` on, of which it takes the first
 * str_index_size(len). They are aligned as malloc aligns a block, and stay the
 * caller's, who does not free the index. May answer STR_INDEX_NO_ROOM, and the
 * others that str_index_make answers; never STR_INDEX_NO_MEMORY. */
STR_INDEX_CHECKED str_index_status str_index_make_in(str_index **index,
                                                     void *room, size_t size,
                                                     const char *text,
                                                     size_t len);

/* Frees an index, and leaves its text. For NULL it does nothing. */
void str_index_free(str_index *index);

/*
 * Questions, each for every index, position and range.
 */

/* How many bytes the text has. */
size_t str_index_len(const str_index *index);

/* How many chars, UTF-16 code units or line breaks the text has. */
size_t str_index_count(const str_index *index, str_indices_scheme scheme);

/* From a byte index to a char, code unit or line index: how many of them end
 * at or before the byte. A byte inside a char or a break belongs to that char,
 * or to the line that the break ends. Any byte index past the end gives all. */
size_t str_index_from_byte_idx(const str_index *index,
                               str_indices_scheme scheme, size_t byte_idx);

/* From a char, code unit or line index to the byte index where that char, the
 * char of that unit, or that line begins. An index past the last gives the
 * length of the text in bytes. */
size_t str_index_to_byte_idx(const str_index *index, str_indices_scheme scheme,
                             size_t idx);

/* Whether a byte index is between two chars, or at the beginning or the end of
 * the text. One past the end is not. */
bool str_index_is_char_boundary(const str_index *index, size_t byte_idx);

/* The questions of str_indices_positions.h, about lines and the positions of a
 * language server. For the whole text, str_index_line returns what
 * str_indices_line returns there, and so on for each name. */
str_indices_bytes str_index_line(const str_index *index,
                                 str_indices_line_type lines, size_t line_idx);
size_t str_index_line_end(const str_index *index, str_indices_line_type lines,
                          size_t line_idx);
str_indices_position str_index_position_of(const str_index *index,
                                           str_indices_line_type lines,
                                           str_indices_encoding encoding,
                                           size_t byte_idx);
str_indices_position str_index_exact_position_of(const str_index *index,
                                                 str_indices_line_type lines,
                                                 str_indices_encoding encoding,
                                                 size_t byte_idx);
str_indices_range str_index_range_of(const str_index *index,
                                     str_indices_line_type lines,
                                     str_indices_encoding encoding,
                                     str_indices_bytes span);
size_t str_index_byte_of(const str_index *index, str_indices_line_type lines,
                         str_indices_encoding encoding,
                         str_indices_position position);
size_t str_index_exact_byte_of(const str_index *index,
                               str_indices_line_type lines,
                               str_indices_encoding encoding,
                               str_indices_position position);
str_indices_bytes str_index_byte_range(const str_index *index,
                                       str_indices_line_type lines,
                                       str_indices_encoding encoding,
                                       str_indices_range range);

#ifdef __cplusplus
}
#endif

#endif
