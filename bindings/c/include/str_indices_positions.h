/*
 * Lines of a UTF-8 text, and the positions of the Language Server Protocol
 * 3.17: from a byte index to a position, and back.
 *
 * A str_indices_line_type says what ends a line. The protocol's lines end by
 * STR_INDICES_LINE_TYPE_CRLF: by LF, CR or CR LF, which is one break. A
 * position is a line and an offset on it, both from 0. A str_indices_encoding
 * says what an offset counts: UTF-16 code units, the protocol's default, bytes,
 * or chars, which are Unicode scalar values. No position names a place inside a
 * break, or after it on its line: an offset past the end of the line means the
 * line's end, before its break. An offset inside a char belongs to the char's
 * start.
 *
 * A rope and an index answer the questions too, by functions of str_rope.h and
 * str_index.h with names alike. Where a function has no answer it returns
 * SIZE_MAX, which is past every text.
 *
 * The functions are in the library of str_indices.h, and each is proved to
 * answer by a definition of lines and positions. The rules there for texts and
 * callers hold here too.
 */
#ifndef STR_INDICES_POSITIONS_H
#define STR_INDICES_POSITIONS_H

#include <stddef.h>

#ifdef __cplusplus
extern "C" {
#endif

/* A place in a text, as a language server names it: the line, and the offset
 * on that line in the units of the encoding. */
typedef struct str_indices_position {
    size_t line;
    size_t character;
} str_indices_position;

/* A part of a text, as a language server names it: from its start up to its
 * end. */
typedef struct str_indices_range {
    str_indices_position start;
    str_indices_position end;
} str_indices_range;

/* A part of a text by byte indices, from `start` up to `end`. */
typedef struct str_indices_bytes {
    size_t start;
    size_t end;
} str_indices_bytes;

/* A scheme: what a rope or an index counts. The breaks of the last three are
 * those of lines_lf, lines_crlf and lines in str_indices.h. A greater number
 * counts as STR_INDICES_LINES. */
typedef enum str_indices_scheme {
    STR_INDICES_CHARS = 0, /* chars */
    STR_INDICES_UTF16 = 1, /* UTF-16 code units */
    STR_INDICES_LF = 2,    /* line breaks: LF alone */
    STR_INDICES_CRLF = 3,  /* line breaks: LF, CR, and CR LF as one break */
    STR_INDICES_LINES = 4  /* line breaks: all those of Unicode */
} str_indices_scheme;

/* The unit of an offset on a line. UTF-32 and UTF-16 have the numbers of the
 * schemes that count as they do. Each other number counts as
 * STR_INDICES_ENCODING_UTF32. */
typedef enum str_indices_encoding {
    STR_INDICES_ENCODING_UTF32 = 0, /* chars */
    STR_INDICES_ENCODING_UTF16 = 1, /* UTF-16 code units, the default */
    STR_INDICES_ENCODING_UTF8 = 5   /* bytes */
} str_indices_encoding;

/* Line break kinds, each with the number of the scheme that counts its breaks.
 * Each other number counts as STR_INDICES_LINE_TYPE_LINES. */
typedef enum str_indices_line_type {
    STR_INDICES_LINE_TYPE_LF = 2,   /* LF: a CR before it is of the line */
    STR_INDICES_LINE_TYPE_CRLF = 3, /* LF, CR, and CR LF: the protocol's */
    STR_INDICES_LINE_TYPE_LINES = 4 /* all line breaks of Unicode */
} str_indices_line_type;

/* Returns the bytes of the content of a line, without its break. Past the last
 * line they are none, at the end of the text. */
str_indices_bytes str_indices_line(const char *text, size_t len,
                                   str_indices_line_type lines,
                                   size_t line_idx);

/* Returns the byte index where the content of a line ends: before its break, or
 * the length of the text in bytes if it is the last line or past it. */
size_t str_indices_line_end(const char *text, size_t len,
                            str_indices_line_type lines, size_t line_idx);

/* Returns the position of a byte: its line, and the units from that line's
 * beginning to the byte. A byte inside a char has the position where the char
 * begins. A byte between the CR and the LF of one break has the position of the
 * line's end, and a byte past the end has the position of the text's end. */
str_indices_position str_indices_position_of(const char *text, size_t len,
                                             str_indices_line_type lines,
                                             str_indices_encoding encoding,
                                             size_t byte_idx);

/* Returns the position of a byte that is a place on a line: SIZE_MAX twice if
 * it is inside a char, between the CR and the LF of one break, or past the end.
 * So a compiler notices a span that is wrong. */
str_indices_position
str_indices_exact_position_of(const char *text, size_t len,
                              str_indices_line_type lines,
                              str_indices_encoding encoding, size_t byte_idx);

/* Returns the positions of both ends of a span of bytes, each as
 * str_indices_position_of does, also if the end is before the start. */
str_indices_range str_indices_range_of(const char *text, size_t len,
                                       str_indices_line_type lines,
                                       str_indices_encoding encoding,
                                       str_indices_bytes span);

/* Returns the byte index where the char at a position begins. An offset inside
 * a char belongs to the char. An offset past the end of the line gives the
 * line's end, before its break, and a line past the last one the length of the
 * text in bytes. */
size_t str_indices_byte_of(const char *text, size_t len,
                           str_indices_line_type lines,
                           str_indices_encoding encoding,
                           str_indices_position position);

/* Returns the byte index of a position that names a place: as
 * str_indices_byte_of, but SIZE_MAX if the text has no such line, or if the
 * offset is past the end of the line or inside a char. So a server notices a
 * client that is out of step. */
size_t str_indices_exact_byte_of(const char *text, size_t len,
                                 str_indices_line_type lines,
                                 str_indices_encoding encoding,
                                 str_indices_position position);

/* Returns the byte indices of a range, each as str_indices_byte_of does, so
 * that `start` is at most `end`. It returns SIZE_MAX twice if the range's end
 * is before its start: on an earlier line, or on the same line and less far on
 * it. */
str_indices_bytes str_indices_byte_range(const char *text, size_t len,
                                         str_indices_line_type lines,
                                         str_indices_encoding encoding,
                                         str_indices_range range);

#ifdef __cplusplus
}
#endif

#endif
