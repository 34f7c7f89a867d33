/*
 * Asks for the worked answers about lines and positions, alike of a plain text,
 * a rope and an index. Where this is included there are TEXT, the parameters of
 * a function that is handed a text; ASK(name, ...), an answer of that text; and
 * same(), which counts an answer.
 */
#ifndef WORKED_POSITIONS_H
#define WORKED_POSITIONS_H

#include "worked_rows.h"

static int same_positions(str_indices_position one, str_indices_position other)
{
    return one.line == other.line && one.character == other.character;
}

static int same_bytes(str_indices_bytes one, str_indices_bytes other)
{
    return one.start == other.start && one.end == other.end;
}

/* Of `lines`, in each encoding. */
static void ask_for_positions(TEXT)
{
    const str_indices_line_type crlf = STR_INDICES_LINE_TYPE_CRLF;
    for (size_t number = 0; number <= ENCODINGS; number++) {
        str_indices_encoding encoding = encodings[number];
        for (size_t i = 0; i < NUMBER_OF(position_rows); i++) {
            str_indices_position wanted = {position_rows[i].line, position_rows[i].character[number]};
            same(same_positions(ASK(position_of, crlf, encoding, position_rows[i].byte), wanted), "position_of", number,
                 position_rows[i].byte);
        }
        for (size_t i = 0; i < NUMBER_OF(byte_rows); i++) {
            str_indices_position position = byte_rows[i].position;
            same(ASK(byte_of, crlf, encoding, position) == byte_rows[i].byte[number], "byte_of", number, i);
            same(ASK(exact_byte_of, crlf, encoding, position) == byte_rows[i].exact[number], "exact_byte_of", number,
                 i);
        }
        for (size_t i = 0; i < NUMBER_OF(range_rows); i++)
            same(same_bytes(ASK(byte_range, crlf, encoding, range_rows[i].range), range_rows[i].bytes[number]),
                 "byte_range", number, i);
    }
    for (size_t line = 0; line < NUMBER_OF(line_rows); line++) {
        same(same_bytes(ASK(line, crlf, line), line_rows[line]), "line", line, 0);
        same(ASK(line_end, crlf, line) == line_rows[line].end, "line_end", line, 0);
    }
    same(ASK(line_end, crlf, MOST) == line_rows[NUMBER_OF(line_rows) - 1].end, "line_end", MOST, 0);
}

/* Of `kinds`, by each kind of line. */
static void ask_by_kind(TEXT)
{
    static const str_indices_position none = {NONE, NONE};
    const str_indices_encoding utf16 = STR_INDICES_ENCODING_UTF16;
    for (size_t kind = 0; kind <= KINDS; kind++) {
        str_indices_line_type type = line_types[kind];
        for (size_t line = 0; line < NUMBER_OF(line_rows_by_kind); line++) {
            str_indices_bytes wanted = line_rows_by_kind[line][kind];
            same(same_bytes(ASK(line, type, line), wanted), "line by kind", kind, line);
            same(ASK(line_end, type, line) == wanted.end, "line_end by kind", kind, line);
        }
        for (size_t i = 0; i < NUMBER_OF(position_rows_by_kind); i++) {
            size_t byte = position_rows_by_kind[i].byte;
            str_indices_position wanted = position_rows_by_kind[i].by_kind[kind].position;
            str_indices_position exact = position_rows_by_kind[i].by_kind[kind].is_exact ? wanted : none;
            str_indices_bytes span = {byte, 5};
            str_indices_range range = ASK(range_of, type, utf16, span);
            same(same_positions(ASK(position_of, type, utf16, byte), wanted), "position_of by kind", kind, byte);
            same(same_positions(ASK(exact_position_of, type, utf16, byte), exact), "exact_position_of", kind, byte);
            same(same_positions(range.start, wanted), "range_of", kind, byte);
            same(same_positions(range.end, position_rows_by_kind[1].by_kind[kind].position), "range_of, its end", kind,
                 byte);
        }
        for (size_t i = 0; i < NUMBER_OF(byte_rows_by_kind); i++) {
            str_indices_position position = byte_rows_by_kind[i].position;
            same(ASK(byte_of, type, utf16, position) == byte_rows_by_kind[i].byte[kind], "byte_of by kind", kind, i);
            same(ASK(exact_byte_of, type, utf16, position) == byte_rows_by_kind[i].exact[kind], "exact_byte_of by kind",
                 kind, i);
        }
        for (size_t i = 0; i < NUMBER_OF(range_rows_by_kind); i++)
            same(same_bytes(ASK(byte_range, type, utf16, range_rows_by_kind[i].range),
                            range_rows_by_kind[i].bytes[kind]),
                 "byte_range by kind", kind, i);
    }
}

#endif
