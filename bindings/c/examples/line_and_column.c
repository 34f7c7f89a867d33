/*
 * Prints the line of a byte of the text on standard input, and its column in
 * UTF-16 code units, both from 0: `line_and_column BYTE < FILE`. A line ends in
 * LF, CR or CR LF.
 */
#include <stdio.h>
#include <stdlib.h>

#include <str_indices.h>

static char text[1 << 20];

int main(int argc, char **argv)
{
    if (argc != 2) {
        fprintf(stderr, "usage: line_and_column BYTE < FILE\n");
        return 2;
    }
    size_t byte = strtoull(argv[1], NULL, 10);
    size_t len = fread(text, 1, sizeof text, stdin);
    if (ferror(stdin) || len == sizeof text || !str_indices_is_utf8(text, len)) {
        fprintf(stderr, "line_and_column: no UTF-8 text below 1 MiB\n");
        return 1;
    }
    size_t line = str_indices_lines_crlf_from_byte_idx(text, len, byte);
    size_t start = str_indices_lines_crlf_to_byte_idx(text, len, line);
    size_t column =
        str_indices_utf16_from_byte_idx(text, len, byte) - str_indices_utf16_from_byte_idx(text, len, start);
    printf("%zu:%zu\n", line, column);
    return 0;
}
