/*
 * Counts the chars, UTF-16 code units and line breaks of a UTF-8 text, and
 * converts between those indices and byte indices.
 *
 * The functions are those of the Rust crate str_indices 0.4.4, each proved to
 * answer by a definition of what is counted. They read the text and nothing
 * else: they write no memory, allocate none, keep nothing, and answer for
 * every text and every index.
 *
 * The library has each count, each conversion and the check of UTF-8 twice,
 * proved twice: over vectors of sixteen bytes, its narrow half, and over
 * vectors of thirty-two, its wide half. Which one answers is chosen once,
 * before main runs: for texts from 256 bytes on the wide half, where the
 * processor has what x86-64-v3 asks for (AVX2 and more), and else the narrow
 * half. The positions of str_indices_positions.h go to the wide half from 1,536
 * bytes on. The environment variable STR_INDICES_HALF, set to "narrow", leaves
 * all texts to the narrow half, and set to "wide" gives all of them to the wide
 * half where the processor has it. The answers are the same.
 *
 * A text is handed over as the address of its first byte and its length in
 * bytes. In every call the caller owes the following, which nothing checks:
 *
 *   - `text` is not null, even where `len` is 0;
 *   - the `len` bytes from `text` on may be read, and no thread writes to them
 *     during the call;
 *   - `len` is at most half of the address space, PTRDIFF_MAX;
 *   - the bytes are UTF-8 (the Unicode Standard, chapter 3, table 3-7). A text
 *     of unknown origin is asked for with str_indices_is_utf8 first: of one
 *     that begins inside a char, bytes before `text` may be read. A zero byte
 *     is a char as any other and ends nothing.
 *
 * Any number of threads may be in these functions at once, with one text or
 * with several.
 *
 * Where one of these is broken, the answer of a call, and what it does, are
 * undefined. The library is built for Linux on x86-64 processors from the
 * level x86-64-v2 on (with SSE4.2), and does not ask whether it runs on one.
 *
 * All indices begin at 0. A char is a Unicode scalar value.
 */
#ifndef STR_INDICES_H
#define STR_INDICES_H

#include <stdbool.h>
#include <stddef.h>

/* The version of the header. str_indices_version tells that of the library. The
 * number is 1000000 times the first, 1000 times the second, and the third. */
#define STR_INDICES_VERSION "0.4.4"
#define STR_INDICES_VERSION_MAJOR 0
#define STR_INDICES_VERSION_MINOR 4
#define STR_INDICES_VERSION_PATCH 4
#define STR_INDICES_VERSION_NUMBER \
    (STR_INDICES_VERSION_MAJOR * 1000000 + STR_INDICES_VERSION_MINOR * 1000 + \
     STR_INDICES_VERSION_PATCH)

#ifdef __cplusplus
extern "C" {
#endif

/* The version of the library that runs, as STR_INDICES_VERSION has the
 * header's. */
const char *str_indices_version(void);

/* Whether the functions below answer for a text of `len` bytes by the wide
 * half. A library that was built without it answers false. */
bool str_indices_is_wide(size_t len);

/* Whether the bytes are UTF-8. All else that the caller owes is owed here
 * too. */
bool str_indices_is_utf8(const char *text, size_t len);

/* How many bytes there are before the first char that is wrong or that ends
 * too soon: the index of the byte where that char begins. If all bytes are
 * UTF-8, the answer is `len`. All else that the caller owes is owed here
 * too. */
size_t str_indices_valid_up_to(const char *text, size_t len);

/*
 * Chars: Unicode scalar values.
 */

/* How many chars the text has. */
size_t str_indices_chars_count(const char *text, size_t len);

/* From a byte index to a char index: the number of chars that end at or
 * before the byte. A byte inside a char belongs to that char. Any byte index
 * past the end gives the number of chars. */
size_t str_indices_chars_from_byte_idx(const char *text, size_t len,
                                       size_t byte_idx);

/* From a char index to the byte index where that char begins. Any index past
 * the last char gives `len`. */
size_t str_indices_chars_to_byte_idx(const char *text, size_t len,
                                     size_t char_idx);

/*
 * UTF-16 code units: two for a char of four bytes in UTF-8, a surrogate pair,
 * and one for any other char.
 */

/* How many UTF-16 code units the text would take. */
size_t str_indices_utf16_count(const char *text, size_t len);

/* How many surrogate pairs the text would have in UTF-16. */
size_t str_indices_utf16_count_surrogates(const char *text, size_t len);

/* From a byte index to a UTF-16 code unit index: the number of units of the
 * chars that end at or before the byte. A byte inside a char belongs to that
 * char, whose first unit is the answer. A byte index past the end gives the
 * number of units. */
size_t str_indices_utf16_from_byte_idx(const char *text, size_t len,
                                       size_t byte_idx);

/* From a UTF-16 code unit index to the byte index where the char of that unit
 * begins. The second unit of a surrogate pair belongs to its char. An index
 * past the last unit gives `len`. */
size_t str_indices_utf16_to_byte_idx(const char *text, size_t len,
                                     size_t utf16_idx);

/*
 * Lines. Line 0 begins at byte 0, and each other line right after a line
 * break, so a text has one line more than it has breaks. The three schemes
 * differ in what is a break:
 *
 *   lines_lf    LF alone (U+000A)
 *   lines_crlf  LF, CR (U+000D), and CR LF, which is one break
 *   lines       as lines_crlf, and VT (U+000B), FF (U+000C), NEL (U+0085),
 *               LS (U+2028) and PS (U+2029): the mandatory breaks of
 *               Unicode Standard Annex 14
 */

/* How many line breaks the text has. */
size_t str_indices_lines_lf_count_breaks(const char *text, size_t len);
size_t str_indices_lines_crlf_count_breaks(const char *text, size_t len);
size_t str_indices_lines_count_breaks(const char *text, size_t len);

/* From a byte index to the index of the line that the byte is on: the number
 * of line breaks that end at or before the byte. A break, and each byte inside
 * it, is on the line that it ends. A byte index past the end gives the index
 * of the last line. */
size_t str_indices_lines_lf_from_byte_idx(const char *text, size_t len,
                                          size_t byte_idx);
size_t str_indices_lines_crlf_from_byte_idx(const char *text, size_t len,
                                            size_t byte_idx);
size_t str_indices_lines_from_byte_idx(const char *text, size_t len,
                                       size_t byte_idx);

/* From a line index to the byte index where that line begins. An index past
 * the last line gives `len`. */
size_t str_indices_lines_lf_to_byte_idx(const char *text, size_t len,
                                        size_t line_idx);
size_t str_indices_lines_crlf_to_byte_idx(const char *text, size_t len,
                                          size_t line_idx);
size_t str_indices_lines_to_byte_idx(const char *text, size_t len,
                                     size_t line_idx);

#ifdef __cplusplus
}
#endif

#endif
