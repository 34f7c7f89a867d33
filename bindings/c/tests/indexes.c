/*
 * An index beside a text, with each function of the header called: worked
 * answers, and made texts with each index, place and position beside a model.
 * The model is made by one walk over the chars of the text, and the worked
 * answers are asked of it too. In the texts chars and breaks lie across each
 * place where a mark would stand. `indexes EVERY` asks for each EVERY-th index
 * alone. It is compiled as C and as C++. The last line printed is 'N passed, M
 * failed'.
 */
#include <stdint.h>
#include <stdio.h>
#include <stdlib.h>
#include <string.h>

#include <str_index.h>

#include "worked_rows.h"

/* Marks stand so far from each other. A text has at most so many bytes, and in
 * UTF-16 no more units. */
enum { APART = 1024, MOST_BYTES = 200000, MOST_TOLD = 20 };

/* Past the end by so many indices a question is asked too. Where some are asked for, that is one of so many. */
enum { PAST = 3, SOME = 7 };

static size_t passed, failed, every = 1;

static void same(int right, const char *call, size_t first, size_t second)
{
    if (right) {
        passed++;
        return;
    }
    failed++;
    if (failed <= MOST_TOLD)
        printf("%s of %zu, %zu\n", call, first, second);
}

/*
 * The model: of each byte how much ends at or before it, and of each index
 * where it begins.
 */

static const char *model_text;
static size_t model_len, before[SCHEMES][MOST_BYTES + 1], begins[SCHEMES][MOST_BYTES + 2];

/* How many bytes a char has that begins with that byte. */
static size_t size_of(char first)
{
    unsigned char byte = (unsigned char)first;
    return byte < 0x80 ? 1 : byte < 0xE0 ? 2 : byte < 0xF0 ? 3 : 4;
}

/* Whether a char is one of these. */
static int is_one_of(const char *at, size_t size, const char *const *chars, size_t number)
{
    for (size_t i = 0; i < number; i++)
        if (strlen(chars[i]) == size && memcmp(chars[i], at, size) == 0)
            return 1;
    return 0;
}

/* What ends a line by Unicode alone. */
static const char *const unicode[] = {"\v", "\f", "\302\205", "\342\200\250", "\342\200\251"};

/* How much of a scheme ends with the char of that size at that byte. */
static size_t weight(size_t scheme, size_t at, size_t size)
{
    const char *here = model_text + at;
    int is_cr = *here == '\r' && !(at + 1 < model_len && here[1] == '\n');
    switch (scheme) {
    case STR_INDICES_CHARS: return 1;
    case STR_INDICES_UTF16: return size == 4 ? 2 : 1;
    case STR_INDICES_LF: return *here == '\n';
    case STR_INDICES_CRLF: return *here == '\n' || is_cr;
    default: return *here == '\n' || is_cr || is_one_of(here, size, unicode, NUMBER_OF(unicode));
    }
}

/* A scheme of the model. An index of a break is that of the line after it. */
static void walk(size_t scheme)
{
    int is_of_lines = scheme >= STR_INDICES_LF;
    size_t number = 0, at = 0;
    begins[scheme][0] = 0;
    while (at < model_len) {
        size_t size = size_of(model_text[at]), ends = weight(scheme, at, size);
        for (size_t i = 0; i < size; i++)
            before[scheme][at + i] = number;
        for (size_t i = 0; i < ends; i++)
            begins[scheme][number + i + is_of_lines] = is_of_lines ? at + size : at;
        number += ends;
        at += size;
    }
    before[scheme][model_len] = number;
    begins[scheme][number + 1] = model_len;
    if (!is_of_lines)
        begins[scheme][number] = model_len;
}

static void make_model(const char *text, size_t len)
{
    model_text = text;
    model_len = len;
    for (size_t scheme = 0; scheme < SCHEMES; scheme++)
        walk(scheme);
}

/* A number above those of the header means the last one. */
static size_t scheme_of(size_t number)
{
    return number < SCHEMES ? number : SCHEMES - 1;
}

static size_t model_from_byte(size_t scheme, size_t byte)
{
    return before[scheme_of(scheme)][byte < model_len ? byte : model_len];
}

static size_t model_to_byte(size_t scheme, size_t index)
{
    scheme = scheme_of(scheme);
    return index <= MOST_BYTES && index <= before[scheme][model_len] ? begins[scheme][index] : model_len;
}

static int model_is_boundary(size_t byte)
{
    return byte == model_len || (byte < model_len && (model_text[byte] & 0xC0) != 0x80);
}

/* The scheme that counts the breaks of a kind of line, which has its number. */
static size_t line_scheme(str_indices_line_type type)
{
    return scheme_of(type);
}

/* How many breaks of a kind the model has. */
static size_t model_breaks(str_indices_line_type type)
{
    return before[line_scheme(type)][model_len];
}

/* Whether a break begins at a char: it ends with that char, or is a CR LF. */
static int model_is_break(str_indices_line_type type, size_t at)
{
    size_t scheme = line_scheme(type);
    return before[scheme][at + size_of(model_text[at])] != before[scheme][at] ||
           (scheme != STR_INDICES_LF && model_text[at] == '\r');
}

/* The units between two boundaries. */
static size_t model_units(str_indices_encoding encoding, size_t from, size_t to)
{
    size_t scheme = encoding == STR_INDICES_ENCODING_UTF16 ? STR_INDICES_UTF16 : STR_INDICES_CHARS;
    return encoding == STR_INDICES_ENCODING_UTF8 ? to - from : before[scheme][to] - before[scheme][from];
}

static str_indices_bytes model_line(str_indices_line_type type, size_t line)
{
    str_indices_bytes bytes;
    bytes.start = bytes.end = model_to_byte(line_scheme(type), line);
    while (bytes.end < model_len && !model_is_break(type, bytes.end))
        bytes.end += size_of(model_text[bytes.end]);
    return bytes;
}

static size_t model_line_end(str_indices_line_type type, size_t line)
{
    return model_line(type, line).end;
}

static str_indices_position model_position_of(str_indices_line_type type, str_indices_encoding encoding, size_t byte)
{
    size_t place = byte < model_len ? byte : model_len;
    str_indices_position position = {model_from_byte(line_scheme(type), byte), 0};
    str_indices_bytes content = model_line(type, position.line);
    while (!model_is_boundary(place))
        place--;
    position.character = model_units(encoding, content.start, place < content.end ? place : content.end);
    return position;
}

/* The position of a byte that is a place on a line, or none. */
static str_indices_position model_exact_position_of(str_indices_line_type type, str_indices_encoding encoding,
                                                    size_t byte)
{
    static const str_indices_position none = {NONE, NONE};
    int is_middle = line_scheme(type) != STR_INDICES_LF && byte > 0 && byte < model_len && model_text[byte] == '\n' &&
                    model_text[byte - 1] == '\r';
    return byte > model_len || !model_is_boundary(byte) || is_middle ? none : model_position_of(type, encoding, byte);
}

static str_indices_range model_range_of(str_indices_line_type type, str_indices_encoding encoding,
                                        str_indices_bytes span)
{
    str_indices_range range;
    range.start = model_position_of(type, encoding, span.start);
    range.end = model_position_of(type, encoding, span.end);
    return range;
}

static size_t model_byte_of(str_indices_line_type type, str_indices_encoding encoding, str_indices_position position)
{
    str_indices_bytes content = model_line(type, position.line);
    size_t place = content.start;
    if (position.line > model_breaks(type))
        return model_len;
    for (size_t at = place; at <= content.end; at += at < model_len ? size_of(model_text[at]) : 1)
        if (model_units(encoding, content.start, at) <= position.character)
            place = at;
    return place;
}

static size_t model_exact_byte_of(str_indices_line_type type, str_indices_encoding encoding,
                                  str_indices_position position)
{
    size_t byte = model_byte_of(type, encoding, position);
    str_indices_position there = model_position_of(type, encoding, byte);
    return there.line == position.line && there.character == position.character ? byte : NONE;
}

static str_indices_bytes model_byte_range(str_indices_line_type type, str_indices_encoding encoding,
                                          str_indices_range range)
{
    str_indices_bytes bytes = {NONE, NONE};
    int is_reversed = range.end.line < range.start.line ||
                      (range.end.line == range.start.line && range.end.character < range.start.character);
    if (!is_reversed) {
        bytes.start = model_byte_of(type, encoding, range.start);
        bytes.end = model_byte_of(type, encoding, range.end);
    }
    return bytes;
}

/* The worked answers are asked of an index, and where it is null of the model. */
#define TEXT const str_index *index
#define ASK(name, ...) (index == NULL ? model_##name(__VA_ARGS__) : str_index_##name(index, __VA_ARGS__))
#include "worked_positions.h"

/*
 * One question each, beside the model.
 */

static void try_byte(const str_index *index, size_t byte)
{
    for (size_t scheme = 0; scheme <= SCHEMES; scheme++)
        same(str_index_from_byte_idx(index, (str_indices_scheme)scheme, byte) == model_from_byte(scheme, byte),
             "from_byte_idx", scheme, byte);
    for (size_t number = 0; number <= ENCODINGS; number++)
        same(same_positions(str_index_position_of(index, STR_INDICES_LINE_TYPE_CRLF, encodings[number], byte),
                            model_position_of(STR_INDICES_LINE_TYPE_CRLF, encodings[number], byte)),
             "position_of", number, byte);
    same(str_index_is_char_boundary(index, byte) == model_is_boundary(byte), "is_char_boundary", byte, 0);
}

static void try_index(const str_index *index, size_t scheme, size_t idx)
{
    same(str_index_to_byte_idx(index, (str_indices_scheme)scheme, idx) == model_to_byte(scheme, idx), "to_byte_idx",
         scheme, idx);
}

static void try_line(const str_index *index, size_t kind, size_t line)
{
    str_indices_line_type type = line_types[kind];
    str_indices_bytes wanted = model_line(type, line);
    same(same_bytes(str_index_line(index, type, line), wanted), "line", kind, line);
    same(str_index_line_end(index, type, line) == wanted.end, "line_end", kind, line);
}

static void try_position(const str_index *index, size_t kind, size_t number, str_indices_position position)
{
    str_indices_line_type type = line_types[kind];
    str_indices_encoding encoding = encodings[number];
    same(str_index_byte_of(index, type, encoding, position) == model_byte_of(type, encoding, position), "byte_of",
         position.line, position.character);
    same(str_index_exact_byte_of(index, type, encoding, position) == model_exact_byte_of(type, encoding, position),
         "exact_byte_of", position.line, position.character);
}

static void try_range(const str_index *index, size_t kind, size_t number, str_indices_range range)
{
    str_indices_line_type type = line_types[kind];
    str_indices_encoding encoding = encodings[number];
    same(same_bytes(str_index_byte_range(index, type, encoding, range), model_byte_range(type, encoding, range)),
         "byte_range", kind, range.start.line);
}

/* Each offset on a line, each with a range from it to a place on the line before, on this one or on the next. */
static void try_positions(const str_index *index, size_t kind, size_t number, size_t line)
{
    str_indices_bytes content = model_line(line_types[kind], line);
    size_t units = model_units(encodings[number], content.start, content.end);
    for (size_t at = 0; at <= units + PAST; at += every) {
        str_indices_position here = {line, at == units + PAST ? MOST : at};
        str_indices_position there = {line + at % 3 - (line > 0), at * 7 % 11};
        str_indices_range range = {here, there};
        try_position(index, kind, number, here);
        try_range(index, kind, number, range);
    }
}

/* The place of a byte, of a span from there, and the byte of its position and of the next one. */
static void try_place(const str_index *index, size_t kind, size_t byte)
{
    str_indices_line_type type = line_types[kind];
    for (size_t number = 0; number <= ENCODINGS; number++) {
        str_indices_encoding encoding = encodings[number];
        str_indices_bytes span = {byte, byte < MOST - 9 ? byte + 9 : MOST};
        str_indices_range range = str_index_range_of(index, type, encoding, span);
        str_indices_range wanted = model_range_of(type, encoding, span);
        str_indices_position next = {wanted.start.line, wanted.start.character + 1};
        same(same_positions(str_index_position_of(index, type, encoding, byte), wanted.start), "position_of", kind,
             byte);
        same(same_positions(str_index_exact_position_of(index, type, encoding, byte),
                            model_exact_position_of(type, encoding, byte)),
             "exact_position_of", kind, byte);
        same(same_positions(range.start, wanted.start) && same_positions(range.end, wanted.end), "range_of", kind,
             byte);
        try_position(index, kind, number, wanted.start);
        try_position(index, kind, number, next);
    }
}

/* Lines of a kind, some places on them, and those far past the end. Each offset is asked for on each of the protocol's
 * lines, and on some of the others. */
static void try_lines(const str_index *index, size_t kind)
{
    static const str_indices_position far[] = {{MOST, 0}, {0, MOST}, {MOST, MOST}};
    size_t step = line_types[kind] == STR_INDICES_LINE_TYPE_CRLF ? every : SOME * every;
    for (size_t byte = 0; byte <= model_len + PAST; byte += SOME * every)
        try_place(index, kind, byte);
    try_place(index, kind, model_len);
    try_place(index, kind, MOST);
    for (size_t line = 0; line <= model_breaks(line_types[kind]) + PAST; line += every) {
        try_line(index, kind, line);
        for (size_t number = 0; number <= ENCODINGS && line % step == 0; number++)
            try_positions(index, kind, number, line);
    }
    try_line(index, kind, MOST);
    for (size_t number = 0; number <= ENCODINGS; number++)
        for (size_t i = 0; i < NUMBER_OF(far); i++) {
            str_indices_range range = {far[0], far[i]};
            try_position(index, kind, number, far[i]);
            try_range(index, kind, number, range);
        }
}

/* All questions of a text, and those far past its end. */
static void try_questions(const str_index *index)
{
    same(str_index_len(index) == model_len, "len", model_len, 0);
    for (size_t byte = 0; byte <= model_len + PAST; byte += every)
        try_byte(index, byte);
    try_byte(index, MOST - 1);
    try_byte(index, MOST);
    for (size_t scheme = 0; scheme <= SCHEMES; scheme++) {
        size_t number = before[scheme_of(scheme)][model_len];
        same(str_index_count(index, (str_indices_scheme)scheme) == number, "count", scheme, number);
        for (size_t idx = 0; idx <= number + PAST; idx += every)
            try_index(index, scheme, idx);
        try_index(index, scheme, MOST - 1);
        try_index(index, scheme, MOST);
    }
    for (size_t kind = 0; kind <= KINDS; kind++)
        try_lines(index, kind);
}

/* An index of the text, of which a copy without a byte to spare is made. */
static str_index *indexed(const char *text, size_t len, char **copy)
{
    str_index *index = NULL;
    *copy = (char *)malloc(len + (len == 0));
    if (*copy == NULL)
        exit(2);
    memcpy(*copy, text, len);
    same(str_index_make(&index, *copy, len) == STR_INDEX_OK && index != NULL, "make", len, 0);
    if (index == NULL)
        exit(1);
    return index;
}

/* An index of the text in a block of as many bytes as it takes: in one with a byte less none is made. */
static void try_in_room(const char *text, size_t len)
{
    size_t size = str_index_size(len);
    str_index *index = (str_index *)text;
    void *room = malloc(size);
    if (room == NULL)
        exit(2);
    same(size == 80 + len / APART * 48, "size", len, size);
    same(str_index_make_in(&index, room, size - 1, text, len) == STR_INDEX_NO_ROOM && index == NULL, "no room", len,
         size);
    same(str_index_make_in(&index, room, size, text, len) == STR_INDEX_OK && (void *)index == room, "make_in", len,
         size);
    for (size_t scheme = 0; index != NULL && scheme <= SCHEMES; scheme++) {
        try_index(index, scheme, len / 2);
        try_index(index, scheme, MOST);
    }
    free(room);
}

/* An index of a text that is known to be UTF-8. */
static void try_known(const char *text, size_t len)
{
    str_index *index = NULL;
    same(str_index_make_utf8(&index, text, len) == STR_INDEX_OK && index != NULL, "make_utf8", len, 0);
    for (size_t scheme = 0; index != NULL && scheme <= SCHEMES; scheme++) {
        try_index(index, scheme, len / 2);
        try_index(index, scheme, MOST);
    }
    str_index_free(index);
}

static void try_text(const char *text, size_t len)
{
    char *copy;
    str_index *index = indexed(text, len, &copy);
    make_model(copy, len);
    try_questions(index);
    try_in_room(copy, len);
    try_known(copy, len);
    str_index_free(index);
    free(copy);
}

/* A text without an address that is said to have bytes makes no index. */
static void null_texts_with_bytes(void)
{
    static const size_t lens[] = {1, 1024, SIZE_MAX};
    for (size_t i = 0; i < NUMBER_OF(lens); i++) {
        str_index *index = (str_index *)&index;
        same(str_index_make(&index, NULL, lens[i]) == STR_INDEX_NULL_TEXT && index == NULL, "make of null", lens[i], 0);
        index = (str_index *)&index;
        same(str_index_make_utf8(&index, NULL, lens[i]) == STR_INDEX_NULL_TEXT && index == NULL, "make_utf8 of null",
             lens[i], 0);
        index = (str_index *)&index;
        same(str_index_make_in(&index, &index, sizeof index, NULL, lens[i]) == STR_INDEX_NULL_TEXT && index == NULL,
             "make_in of null", lens[i], 0);
    }
}

/* A text without an address is the empty one, and none is above PTRDIFF_MAX. */
static void no_text_and_a_long_one(void)
{
    str_index *index = NULL;
    same(str_index_make(&index, NULL, 0) == STR_INDEX_OK && index != NULL, "make of no text", 0, 0);
    same(index != NULL && str_index_len(index) == 0, "no text", 0, 0);
    for (size_t scheme = 0; index != NULL && scheme <= SCHEMES; scheme++)
        same(str_index_count(index, (str_indices_scheme)scheme) == 0, "no text, by scheme", scheme, 0);
    same(index != NULL &&
             str_index_position_of(index, STR_INDICES_LINE_TYPE_CRLF, STR_INDICES_ENCODING_UTF16, 1).line == 0,
         "position of no text", 0, 0);
    str_index_free(index);
    for (size_t len = (size_t)PTRDIFF_MAX + 1, i = 0; i < 2; len = SIZE_MAX, i++) {
        index = (str_index *)&index;
        same(str_index_size(len) == 0, "size of a long text", len, 0);
        same(str_index_make(&index, "", len) == STR_INDEX_TOO_LONG && index == NULL, "make of a long text", len, 0);
        index = (str_index *)&index;
        same(str_index_make_in(&index, &index, sizeof index, "", len) == STR_INDEX_TOO_LONG && index == NULL,
             "make_in of a long text", len, 0);
    }
}

/* Each status has words of its own, and the library its header's version, as a text and as numbers. */
static void words_and_version(void)
{
    char numbers[64];
    for (int status = STR_INDEX_OK; status <= STR_INDEX_NULL_TEXT + 1; status++)
        for (int other = STR_INDEX_OK; other < status; other++)
            same(strcmp(str_index_status_text((str_index_status)status),
                        str_index_status_text((str_index_status)other)) != 0,
                 "status_text", (size_t)status, (size_t)other);
    same(strcmp(str_index_version(), STR_INDEX_VERSION) == 0, "version", 0, 0);
    snprintf(numbers, sizeof numbers, "%d.%d.%d", STR_INDEX_VERSION_NUMBER / 1000000,
             STR_INDEX_VERSION_NUMBER / 1000 % 1000, STR_INDEX_VERSION_NUMBER % 1000);
    same(strcmp(numbers, STR_INDEX_VERSION) == 0, "version by its number", 0, 0);
}

/*
 * Worked answers, of the library and of the model.
 */

static void worked_indices(void)
{
    char *copy;
    str_index *index = indexed(breaks, sizeof breaks - 1, &copy);
    make_model(breaks, sizeof breaks - 1);
    for (size_t scheme = 0; scheme <= SCHEMES; scheme++) {
        str_indices_scheme asked = (str_indices_scheme)scheme;
        same(str_index_count(index, asked) == counted[scheme], "count", scheme, counted[scheme]);
        for (size_t i = 0; i < NUMBER_OF(from_byte_rows); i++) {
            size_t byte = from_byte_rows[i].byte, wanted = from_byte_rows[i].by_scheme[scheme];
            same(str_index_from_byte_idx(index, asked, byte) == wanted, "from_byte_idx", scheme, byte);
            same(model_from_byte(scheme, byte) == wanted, "the model's from_byte_idx", scheme, byte);
        }
        for (size_t i = 0; i < NUMBER_OF(to_byte_rows); i++) {
            size_t idx = to_byte_rows[i].index, wanted = to_byte_rows[i].by_scheme[scheme];
            same(str_index_to_byte_idx(index, asked, idx) == wanted, "to_byte_idx", scheme, idx);
            same(model_to_byte(scheme, idx) == wanted, "the model's to_byte_idx", scheme, idx);
        }
    }
    for (size_t at = 0; at < sizeof boundary_marks - 1; at++) {
        same(str_index_is_char_boundary(index, at) == (boundary_marks[at] == '1'), "is_char_boundary", at, 0);
        same(model_is_boundary(at) == (boundary_marks[at] == '1'), "the model's is_char_boundary", at, 0);
    }
    str_index_free(index);
    free(copy);
}

static void worked_positions(void)
{
    char *copy;
    str_index *index = indexed(lines, sizeof lines - 1, &copy);
    make_model(lines, sizeof lines - 1);
    ask_for_positions(index);
    ask_for_positions(NULL);
    str_index_free(index);
    free(copy);
}

static void worked_kinds(void)
{
    char *copy;
    str_index *index = indexed(kinds, sizeof kinds - 1, &copy);
    make_model(kinds, sizeof kinds - 1);
    ask_by_kind(index);
    ask_by_kind(NULL);
    str_index_free(index);
    free(copy);
}

/* Bytes that are no UTF-8, alone and where the text is else of many marks. */
static void refused_bytes(void)
{
    static const char *const wrong[] = {"\200",         "\300\200",         "\303", "\343\201", "\355\240\200",
                                        "\360\237\220", "\364\220\200\200", "\377"};
    static char text[5 * APART];
    for (size_t i = 0; i < NUMBER_OF(wrong); i++)
        for (size_t len = 0; len <= sizeof text - 4; len += len < 2 * APART ? 512 : APART) {
            str_index *index = (str_index *)text;
            memset(text, 'a', sizeof text);
            memcpy(text + len, wrong[i], strlen(wrong[i]));
            same(str_index_make(&index, text, len + strlen(wrong[i])) == STR_INDEX_NOT_UTF8, "make", i, len);
            same(index == NULL, "the index after a refusal", i, len);
        }
    str_index_free(NULL);
}

/*
 * Made texts.
 */

static char made[MOST_BYTES];

/* What lies across each place of a mark, at each shift: a text that has several of it, and ends there too. */
static void try_across(const char *across)
{
    size_t size = strlen(across);
    for (size_t shift = 0; shift <= size; shift++)
        for (size_t marks = 1; marks <= 3; marks += 2) {
            size_t len = marks * APART - shift + size;
            memset(made, 'a', len);
            for (size_t i = 0; i < len; i += 61)
                made[i] = '\n';
            for (size_t mark = 1; mark <= marks; mark++)
                memcpy(made + mark * APART - shift, across, size);
            try_text(made, len);
        }
}

/* A text of one thing, again and again, as long as there is room below that length. */
static void try_filled(const char *thing, size_t most)
{
    size_t size = strlen(thing), len = 0;
    for (; len + size <= most; len += size)
        memcpy(made + len, thing, size);
    try_text(made, len);
}

/* A text of chars and breaks of all kinds by chance, of lines as long as `rarely` says. */
static void try_random(size_t most, size_t rarely)
{
    static const char *const chars[] = {"a", "\303\251", "\343\201\233", FROG, "\342\200\247", "\302\204"};
    static const char *const ends[] = {"\n", "\r",       "\r\n",         "\n\r",        "\v",
                                       "\f", "\302\205", "\342\200\250", "\342\200\251"};
    static uint64_t state = 20261128;
    size_t len = 0;
    while (len + 4 <= most) {
        state = state * 6364136223846793005u + 1442695040888963407u;
        size_t drawn = (size_t)(state >> 33);
        const char *one =
            drawn % rarely == 0 ? ends[drawn / rarely % NUMBER_OF(ends)] : chars[drawn / rarely % NUMBER_OF(chars)];
        memcpy(made + len, one, strlen(one));
        len += strlen(one);
    }
    try_text(made, len);
}

int main(int number, char **words)
{
    static const char *const across[] = {"\r\n",         "\r\r\n",   "\n\r\n",        "\r",           "\n",
                                         FROG,           FROG FROG,  "\303\251",      "\343\201\233", "\302\205",
                                         "\342\200\250", "\r\n\r\n", FROG "\r\n" FROG};
    static const size_t lens[] = {0, 1, APART - 1, APART, APART + 1, 2 * APART, 3 * APART + 5};
    every = number > 1 ? (size_t)strtoull(words[1], NULL, 10) : 1;
    worked_indices();
    worked_positions();
    worked_kinds();
    refused_bytes();
    null_texts_with_bytes();
    no_text_and_a_long_one();
    words_and_version();
    for (size_t i = 0; i < NUMBER_OF(across); i++)
        try_across(across[i]);
    for (size_t i = 0; i < NUMBER_OF(lens); i++) {
        try_filled("a", lens[i]);
        try_filled("\r\n", lens[i]);
        try_filled(FROG, lens[i]);
        try_filled("a\r", lens[i]);
    }
    try_random(5000, 3);
    try_random(5000, 50);
    try_random(3 * APART, 4000);
    every *= 23;
    try_random(MOST_BYTES, 20);
    printf("%zu passed, %zu failed\n", passed, failed);
    return failed != 0;
}
