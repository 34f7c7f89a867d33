/*
 * Reports a span of the text on standard input, as a compiler does an error:
 * `report_span FROM TO < FILE`, by bytes. It prints the line and the column
 * where the span begins, both from 1, and its lines with carets below it. With
 * a third word `lf` lines end in LF alone, and with `lines` in every break of
 * Unicode.
 */
#include <stdio.h>
#include <stdlib.h>
#include <string.h>

#include <str_index.h>

static char text[1 << 20];

/* Prints a part of a line, or where there is a mark that below each of its chars. A tab takes four columns. */
static void print(size_t from, size_t to, char mark)
{
    for (size_t at = from; at < to; at++)
        if (text[at] == '\t')
            printf("%s", mark == '^' ? "^^^^" : "    ");
        else if (mark == '\0')
            putchar(text[at]);
        else if ((text[at] & 0xC0) != 0x80) /* the first byte of a char */
            putchar(mark);
}

/* Tells what ends a line, by the last word. */
static str_indices_line_type line_type(const char *word)
{
    return strcmp(word, "lf") == 0      ? STR_INDICES_LINE_TYPE_LF
           : strcmp(word, "lines") == 0 ? STR_INDICES_LINE_TYPE_LINES
                                        : STR_INDICES_LINE_TYPE_CRLF;
}

static void report(const str_index *index, str_indices_line_type lines, size_t from, size_t to)
{
    str_indices_bytes span = {from, to > from ? to : from};
    str_indices_range range = str_index_range_of(index, lines, STR_INDICES_ENCODING_UTF8, span);
    str_indices_position start = range.start, end = range.end;
    size_t column = str_index_position_of(index, lines, STR_INDICES_ENCODING_UTF32, from).character;
    /* the line that the span ends on, but not where it ends at that line's beginning */
    size_t last = end.line - (end.line > start.line && end.character == 0);
    int width = snprintf(NULL, 0, "%zu", last + 1);
    printf("%zu:%zu\n", start.line + 1, column + 1);
    for (size_t line = start.line; line <= last; line++) {
        str_indices_bytes content = str_index_line(index, lines, line);
        size_t left = line == start.line ? content.start + start.character : content.start;
        size_t right = line == end.line ? content.start + end.character : content.end;
        printf("%*zu | ", width, line + 1);
        print(content.start, content.end, '\0');
        printf("\n%*s | ", width, "");
        print(content.start, left, ' ');
        print(left, right, '^');
        puts(left == right ? "^" : "");
    }
}

int main(int number, char **words)
{
    str_index *index;
    size_t len = fread(text, 1, sizeof text, stdin);
    if (number < 3 || number > 4 || ferror(stdin) || len == sizeof text ||
        str_index_make(&index, text, len) != STR_INDEX_OK) {
        fprintf(stderr, "usage: report_span FROM TO [lf | lines] < FILE, which is UTF-8 below 1 MiB\n");
        return 1;
    }
    report(index, line_type(number == 4 ? words[3] : ""), strtoull(words[1], NULL, 10), strtoull(words[2], NULL, 10));
    str_index_free(index);
    return 0;
}
