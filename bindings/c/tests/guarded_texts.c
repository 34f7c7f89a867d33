/*
 * The functions of str_indices.h beside a plain model, over texts that end, and
 * texts that begin, at a page that may not be read: a read past a text ends the
 * program by a signal. There is a text of each length to 5,000 bytes, and some
 * to 70,000. Of positions the line is compared, and that the way back leads
 * where it should. It tells for which texts the wide half answers, and the last
 * line printed is 'N passed, M failed'. With the word `past` it reads a byte
 * past a text itself, and must not come to an end.
 */
#define _GNU_SOURCE
#include <stdint.h>
#include <stdio.h>
#include <string.h>
#include <sys/mman.h>
#include <unistd.h>

#include <str_indices.h>
#include <str_indices_positions.h>

enum { EVERY_INDEX = 300, EVERY_LENGTH = 5000, LONGEST = 70000, SOME = 12 };

/* What is counted, and after each char or break where it ends and the sum. */
struct counted {
    size_t number;
    size_t end[LONGEST + 1];
    size_t sum[LONGEST + 1];
};
enum { CHARS, UTF16, LF, CRLF, LINES, PAIRS, KINDS };
static struct counted model[KINDS];

/* clang-format off */
static const char *const characters[] = {
    "a", " ", "\n", "\r", "\r\n", "\v", "\f", "\302\205", "\302\204", "\303\251",
    "\342\200\250", "\342\200\251", "\342\200\247", "\343\201\233", "\340\252\205",
    "\360\237\220\270", "\364\217\277\277", "\n\r", "\0",
};
/* clang-format on */
enum { CHARACTERS = sizeof characters / sizeof characters[0] };

static size_t passed, failed;

/* A small generator of numbers (splitmix64): each run has the same texts. */
static uint64_t state;

static size_t below(size_t limit)
{
    uint64_t mixed = state += UINT64_C(0x9E3779B97F4A7C15);
    mixed = (mixed ^ (mixed >> 30)) * UINT64_C(0xBF58476D1CE4E5B9);
    mixed = (mixed ^ (mixed >> 27)) * UINT64_C(0x94D049BB133111EB);
    return (size_t)((mixed ^ (mixed >> 31)) % limit);
}

/* A text of so many bytes, of three characters, and of others once in so many
 * times; 0 is never. */
static void make(char *text, size_t len, const size_t pool[3], size_t others)
{
    size_t at = 0;

    while (at < len) {
        int other = others && below(others) == 0;
        const char *next = characters[other ? below(CHARACTERS) : pool[below(3)]];
        size_t size = *next ? strlen(next) : 1;
        if (size > len - at)
            next = "x", size = 1;
        memcpy(text + at, next, size);
        at += size;
    }
}

static void count(int kind, size_t end, size_t weight)
{
    struct counted *counted = &model[kind];
    size_t before = counted->number ? counted->sum[counted->number - 1] : 0;

    counted->end[counted->number] = end;
    counted->sum[counted->number++] = before + weight;
}

static size_t size_of(unsigned char first)
{
    return first < 0x80 ? 1 : first < 0xE0 ? 2 : first < 0xF0 ? 3 : 4;
}

/* Whether a char of that size is a break of Unicode, other than LF and CR. */
static int is_other_break(const char *text, size_t size)
{
    static const char *const breaks[] = {"\v", "\f", "\302\205", "\342\200\250", "\342\200\251"};

    for (size_t i = 0; i < sizeof breaks / sizeof breaks[0]; i++)
        if (strlen(breaks[i]) == size && memcmp(text, breaks[i], size) == 0)
            return 1;
    return 0;
}

/* The model of a text, char by char. */
static void walk(const char *text, size_t len)
{
    for (int kind = 0; kind < KINDS; kind++)
        model[kind].number = 0;
    for (size_t at = 0, size; at < len; at += size) {
        int ends_line = text[at] == '\n' || (text[at] == '\r' && !(at + 1 < len && text[at + 1] == '\n'));
        size = size_of((unsigned char)text[at]);
        count(CHARS, at + size, 1);
        count(UTF16, at + size, size == 4 ? 2 : 1);
        if (size == 4)
            count(PAIRS, at + size, 1);
        if (text[at] == '\n')
            count(LF, at + size, 1);
        if (ends_line)
            count(CRLF, at + size, 1);
        if (ends_line || is_other_break(text + at, size))
            count(LINES, at + size, 1);
    }
}

/* How many of the places are at or below a number; they grow. */
static size_t reached(const size_t *places, size_t number, size_t most)
{
    size_t from = 0, to = number;

    while (from < to) {
        size_t middle = from + (to - from) / 2;
        if (places[middle] <= most)
            from = middle + 1;
        else
            to = middle;
    }
    return from;
}

static size_t total(int kind)
{
    return model[kind].number ? model[kind].sum[model[kind].number - 1] : 0;
}

static size_t from_byte(int kind, size_t byte)
{
    size_t places = reached(model[kind].end, model[kind].number, byte);
    return places ? model[kind].sum[places - 1] : 0;
}

static size_t to_byte(int kind, size_t len, size_t index)
{
    size_t places = reached(model[kind].sum, model[kind].number, index);
    if (index > total(kind))
        return len;
    return places ? model[kind].end[places - 1] : 0;
}

static void same(const char *call, size_t len, size_t index, size_t answer, size_t expected)
{
    if (answer == expected) {
        passed++;
        return;
    }
    if (failed++ < 20)
        printf("%s of %zu bytes at %zu: %zu, not %zu\n", call, len, index, answer, expected);
}

typedef size_t (*counting)(const char *, size_t);
typedef size_t (*converting)(const char *, size_t, size_t);

/* The schemes, each with its functions and its name. */
#define FUNCTIONS(scheme, counting) \
    str_indices_##scheme##_##counting, str_indices_##scheme##_from_byte_idx, str_indices_##scheme##_to_byte_idx, #scheme

static const struct {
    int kind;
    counting count;
    converting from, to;
    const char *name;
} schemes[] = {
    {CHARS, FUNCTIONS(chars, count)},        {UTF16, FUNCTIONS(utf16, count)},
    {LF, FUNCTIONS(lines_lf, count_breaks)}, {CRLF, FUNCTIONS(lines_crlf, count_breaks)},
    {LINES, FUNCTIONS(lines, count_breaks)},
};

/* The kinds of line, and the breaks of each. */
static const struct {
    const char *name;
    str_indices_line_type type;
    int kind;
} line_types[] = {
    {"LF lines", STR_INDICES_LINE_TYPE_LF, LF},
    {"CR LF lines", STR_INDICES_LINE_TYPE_CRLF, CRLF},
    {"Unicode lines", STR_INDICES_LINE_TYPE_LINES, LINES},
};

/* Whether a byte is a place on a line: no char and no break has it inside. */
static int is_place(const char *text, size_t len, int kind, size_t byte)
{
    int is_middle = kind != LF && byte > 0 && byte < len && text[byte] == '\n' && text[byte - 1] == '\r';
    return byte <= len && to_byte(CHARS, len, from_byte(CHARS, byte)) == byte && !is_middle;
}

/* The line of a byte's position, and the way back by the position and its line. */
static void place(const char *text, size_t len, size_t byte, size_t row, str_indices_encoding encoding)
{
    str_indices_line_type type = line_types[row].type;
    const char *name = line_types[row].name;
    int kind = line_types[row].kind;
    str_indices_position position = str_indices_position_of(text, len, type, encoding, byte);
    str_indices_position exact = str_indices_exact_position_of(text, len, type, encoding, byte);
    str_indices_bytes line = str_indices_line(text, len, type, position.line);
    size_t back = str_indices_byte_of(text, len, type, encoding, position);
    str_indices_range to_here = {{position.line, 0}, position};
    str_indices_bytes span = {back, byte}, found = str_indices_byte_range(text, len, type, encoding, to_here);
    str_indices_range range = str_indices_range_of(text, len, type, encoding, span);

    same(name, len, byte, position.line, from_byte(kind, byte));
    same("line", len, byte, line.start, to_byte(kind, len, position.line));
    same("line_end", len, byte, str_indices_line_end(text, len, type, position.line), line.end);
    if (is_place(text, len, kind, byte)) {
        same("exact_position_of", len, byte, exact.line, position.line);
        same("way back", len, byte, back, byte);
    } else {
        same("exact_position_of", len, byte, exact.line, SIZE_MAX);
        same("way back", len, byte, back < byte, 1);
    }
    same("on its line", len, byte, line.start <= back && back <= line.end && line.end <= len, 1);
    same("exact_byte_of", len, byte, str_indices_exact_byte_of(text, len, type, encoding, position), back);
    same("byte_range", len, byte, found.start == line.start && found.end == back, 1);
    same("range_of", len, byte, range.start.character == range.end.character, 1);
}

/* The same of each kind of line and each encoding. */
static void places(const char *text, size_t len, size_t byte)
{
    static const str_indices_encoding encodings[] = {STR_INDICES_ENCODING_UTF8, STR_INDICES_ENCODING_UTF16,
                                                     STR_INDICES_ENCODING_UTF32};
    for (size_t row = 0; row < sizeof line_types / sizeof line_types[0]; row++)
        for (size_t i = 0; i < sizeof encodings / sizeof encodings[0]; i++)
            place(text, len, byte, row, encodings[i]);
}

static void convert(size_t row, const char *text, size_t len, size_t byte, size_t index)
{
    int kind = schemes[row].kind;
    same(schemes[row].name, len, byte, schemes[row].from(text, len, byte), from_byte(kind, byte));
    same(schemes[row].name, len, index, schemes[row].to(text, len, index), to_byte(kind, len, index));
}

/* Each function over the text, at every index or at some. */
static void compare(const char *text, size_t len)
{
    same("is_utf8", len, 0, str_indices_is_utf8(text, len), 1);
    same("valid_up_to", len, 0, str_indices_valid_up_to(text, len), len);
    same("surrogates", len, 0, str_indices_utf16_count_surrogates(text, len), total(PAIRS));
    for (size_t row = 0; row < sizeof schemes / sizeof schemes[0]; row++) {
        size_t most = total(schemes[row].kind);
        same(schemes[row].name, len, 0, schemes[row].count(text, len), most);
        convert(row, text, len, len, most);
        convert(row, text, len, len + 1, most + 1);
        convert(row, text, len, SIZE_MAX, SIZE_MAX);
        if (len <= EVERY_INDEX)
            for (size_t index = 0; index < len; index++)
                convert(row, text, len, index, index);
        else
            for (int some = 0; some < SOME; some++)
                convert(row, text, len, below(len), below(most + 1));
    }
    places(text, len, len);
    places(text, len, below(len + 1));
    places(text, len, SIZE_MAX);
}

/* A text that is cut off at some byte, or has one there that no text has: it is
 * UTF-8 up to the char of that byte. */
static void spoil(char *text, size_t len)
{
    size_t at = below(len), char_start = to_byte(CHARS, len, from_byte(CHARS, at));
    char taken_out = text[at];

    same("is_utf8 cut off", len, at, str_indices_is_utf8(text, at), at == char_start);
    same("valid_up_to cut off", len, at, str_indices_valid_up_to(text, at), char_start);
    text[at] = '\377';
    same("is_utf8 spoilt", len, at, str_indices_is_utf8(text, len), 0);
    same("valid_up_to spoilt", len, at, str_indices_valid_up_to(text, len), char_start);
    text[at] = taken_out;
}

/* Memory between two pages that may not be read; the answer is its first byte. */
static char *guarded(size_t *size)
{
    size_t page = (size_t)sysconf(_SC_PAGESIZE);
    char *all;

    *size = (LONGEST / page + 1) * page;
    all = (char *)mmap(NULL, *size + 2 * page, PROT_NONE, MAP_PRIVATE | MAP_ANONYMOUS, -1, 0);
    if (all == MAP_FAILED || mprotect(all + page, *size, PROT_READ | PROT_WRITE) != 0)
        return NULL;
    return all + page;
}

/* A text at either end of the memory. */
static void compare_at_both(char *memory, size_t size, size_t len, const size_t pool[3], size_t others)
{
    char *text = memory + size - len;

    make(text, len, pool, others);
    walk(text, len);
    compare(text, len);
    if (len > 0)
        spoil(text, len);
    memmove(memory, text, len);
    compare(memory, len);
    if (len > 0)
        spoil(memory, len);
}

static void compare_random(char *memory, size_t size, size_t len)
{
    const size_t pool[] = {below(CHARACTERS), below(CHARACTERS), below(CHARACTERS)};
    compare_at_both(memory, size, len, pool, 16);
}

/* Long texts of one character alone, which fills each lane in each round. */
static void compare_alike(char *memory, size_t size, size_t len)
{
    for (size_t character = 0; character < CHARACTERS; character++) {
        const size_t pool[] = {character, character, character};
        compare_at_both(memory, size, len, pool, 0);
    }
}

static const char *answered_by_the_wide_half(void)
{
    if (str_indices_is_wide(0))
        return "every text";
    return str_indices_is_wide(256) ? "texts from 256 bytes on" : "no text";
}

int main(int number, char **words)
{
    size_t size;
    char *memory = guarded(&size);

    if (memory == NULL) {
        printf("no guarded memory\n");
        return 1;
    }
    if (number > 1 && strcmp(words[1], "past") == 0)
        return str_indices_chars_count(memory + size - 1, 2) == 0;
    for (size_t len = 0; len <= EVERY_LENGTH; len++)
        compare_random(memory, size, len);
    for (size_t len = EVERY_LENGTH; len <= LONGEST; len += 1 + below(1500))
        compare_random(memory, size, len);
    compare_alike(memory, size, 4097);
    compare_alike(memory, size, LONGEST);
    printf("the wide half answers for %s\n", answered_by_the_wide_half());
    printf("%zu passed, %zu failed\n", passed, failed);
    return failed != 0;
}
