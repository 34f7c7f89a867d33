/*
 * Worked answers, from the documentation and the tests of the Rust crate
 * str_indices, with each function of the header called, and of texts long
 * enough for the wide half of the library. It is compiled as C and as C++. It
 * tells for which texts the wide half answers, and the last line printed is
 * 'N passed, M failed'.
 */
#include <stdio.h>
#include <string.h>

#include <str_indices.h>

/* 45 bytes, 23 chars, 27 UTF-16 code units. */
static const char frogs[] = "Hel\360\237\220\270lo world! \343\201\223\343\202\223\360\237\220\270"
                            "\343\201\253\343\201\241\360\237\220\270\360\237\220\270\343\201\257!";

/* 48 bytes: LF, CR LF, CR, VT, FF, NEL, LS and PS between words. */
static const char all_breaks[] = "\nHello\r\n\r\343\201\233\013\343\201\213\014\343\201\204\302\205."
                                 " There\342\200\250is something.\342\200\251";

static const char crlf[] = "Here\r\nare\r\nsome\r\nwords";
static const char crs[] = "\r\r\n\n";
static const char separated[] = "a\342\200\250b";

/* Ten and twelve times those texts, 450 and 264 bytes, and often enough for the
 * functions that go to the wide half from 1,536 bytes on, 1,800 and 2,200. */
static char ten_frogs[10 * (sizeof frogs - 1) + 1];
static char twelve_crlf[12 * (sizeof crlf - 1) + 1];
static char forty_frogs[40 * (sizeof frogs - 1) + 1];
static char hundred_crlf[100 * (sizeof crlf - 1) + 1];

static int passed, failed;

static void same(const char *call, size_t answer, size_t expected)
{
    if (answer == expected) {
        passed++;
        return;
    }
    failed++;
    printf("%s: %zu, not %zu\n", call, answer, expected);
}

/* Each SAME is one call over a text which is an array. */
#define SAME(expected, name, text) same(#name " of " #text, str_indices_##name(text, sizeof text - 1), expected)
#define SAME_AT(expected, name, text, index) \
    same(#name " of " #text " at " #index, str_indices_##name(text, sizeof text - 1, index), expected)

/* How many of the bytes are UTF-8, and whether all are. */
#define UTF8_UP_TO(expected, text) \
    SAME((expected) == sizeof text - 1, is_utf8, text); \
    SAME(expected, valid_up_to, text)

/* Whole texts, and then: a trailing byte alone, overlong forms, a surrogate,
 * what is past U+10FFFF, a byte that no text has, a char that ends too soon
 * inside and at the end. */
static void utf8(void)
{
    UTF8_UP_TO(45, frogs);
    UTF8_UP_TO(0, "");
    UTF8_UP_TO(3, "a\0b");
    UTF8_UP_TO(2, "ab\200");
    UTF8_UP_TO(0, "\300\200");
    UTF8_UP_TO(1, "a\340\237\277");
    UTF8_UP_TO(3, "abc\355\240\200");
    UTF8_UP_TO(1, "a\364\220\200\200");
    UTF8_UP_TO(4, "\360\237\220\270\377");
    UTF8_UP_TO(1, "a\343\201b");
    UTF8_UP_TO(3, "\343\201\223\343\201");
}

static void chars_and_utf16(void)
{
    SAME(23, chars_count, frogs);
    SAME(3, chars_count, "a\0b");
    SAME_AT(3, chars_from_byte_idx, frogs, 5);
    SAME_AT(23, chars_from_byte_idx, frogs, 99);
    SAME_AT(7, chars_to_byte_idx, frogs, 4);
    SAME_AT(45, chars_to_byte_idx, frogs, 24);

    SAME(27, utf16_count, frogs);
    SAME(4, utf16_count_surrogates, frogs);
    SAME_AT(17, utf16_from_byte_idx, frogs, 26);
    SAME_AT(19, utf16_from_byte_idx, frogs, 27);
    SAME_AT(23, utf16_to_byte_idx, frogs, 18);
    SAME_AT(45, utf16_to_byte_idx, frogs, 28);
}

static void line_breaks(void)
{
    SAME(3, lines_lf_count_breaks, crlf);
    SAME(2, lines_lf_count_breaks, crs);
    SAME_AT(1, lines_lf_from_byte_idx, crs, 3);
    SAME_AT(6, lines_lf_to_byte_idx, crlf, 1);
    SAME_AT(3, lines_lf_to_byte_idx, crs, 1);

    SAME(3, lines_crlf_count_breaks, crs);
    SAME(0, lines_crlf_count_breaks, separated);
    SAME_AT(0, lines_crlf_from_byte_idx, crlf, 5);
    SAME_AT(1, lines_crlf_from_byte_idx, crlf, 6);
    SAME_AT(2, lines_crlf_from_byte_idx, crs, 3);
    SAME_AT(0, lines_crlf_from_byte_idx, separated, 5);
    SAME_AT(1, lines_crlf_to_byte_idx, crs, 1);
    SAME_AT(5, lines_crlf_to_byte_idx, separated, 1);

    SAME(8, lines_count_breaks, all_breaks);
    SAME_AT(8, lines_from_byte_idx, all_breaks, 48);
    SAME_AT(4, lines_to_byte_idx, separated, 1);
    SAME_AT(22, lines_to_byte_idx, crlf, 4);
}

static void the_empty_text(void)
{
    SAME(0, chars_count, "");
    SAME_AT(0, utf16_from_byte_idx, "", (size_t)-1);
    SAME_AT(0, lines_to_byte_idx, "", (size_t)-1);
}

static void repeat(char *text, size_t size, const char *part, size_t len)
{
    for (size_t at = 0; at + len < size; at += len)
        memcpy(text + at, part, len);
}

static void long_texts(void)
{
    repeat(ten_frogs, sizeof ten_frogs, frogs, sizeof frogs - 1);
    SAME(230, chars_count, ten_frogs);
    SAME_AT(230, chars_from_byte_idx, ten_frogs, 450);
    SAME_AT(449, chars_to_byte_idx, ten_frogs, 229);
    SAME(270, utf16_count, ten_frogs);
    SAME(40, utf16_count_surrogates, ten_frogs);
    SAME_AT(262, utf16_from_byte_idx, ten_frogs, 432);
    SAME_AT(428, utf16_to_byte_idx, ten_frogs, 261);
    UTF8_UP_TO(450, ten_frogs);
    ten_frogs[449] = '\360';
    UTF8_UP_TO(449, ten_frogs);
    ten_frogs[301] = 'x';
    UTF8_UP_TO(300, ten_frogs);

    repeat(twelve_crlf, sizeof twelve_crlf, crlf, sizeof crlf - 1);
    SAME(36, lines_lf_count_breaks, twelve_crlf);
    SAME_AT(35, lines_lf_from_byte_idx, twelve_crlf, 258);
    SAME_AT(259, lines_lf_to_byte_idx, twelve_crlf, 36);
    SAME(36, lines_crlf_count_breaks, twelve_crlf);
    SAME_AT(35, lines_crlf_from_byte_idx, twelve_crlf, 258);
    SAME_AT(259, lines_crlf_to_byte_idx, twelve_crlf, 36);
    SAME(36, lines_count_breaks, twelve_crlf);
    SAME_AT(36, lines_from_byte_idx, twelve_crlf, 259);
    SAME_AT(264, lines_to_byte_idx, twelve_crlf, 37);
}

static void longer_texts(void)
{
    repeat(forty_frogs, sizeof forty_frogs, frogs, sizeof frogs - 1);
    SAME_AT(1799, chars_to_byte_idx, forty_frogs, 919);
    SAME_AT(1800, chars_to_byte_idx, forty_frogs, 920);
    SAME_AT(1778, utf16_to_byte_idx, forty_frogs, 1071);
    SAME_AT(1800, utf16_to_byte_idx, forty_frogs, 1080);

    repeat(hundred_crlf, sizeof hundred_crlf, crlf, sizeof crlf - 1);
    SAME_AT(2195, lines_lf_to_byte_idx, hundred_crlf, 300);
    SAME_AT(2200, lines_lf_to_byte_idx, hundred_crlf, 301);
    SAME_AT(2195, lines_crlf_to_byte_idx, hundred_crlf, 300);
    SAME_AT(2200, lines_crlf_to_byte_idx, hundred_crlf, 301);
}

/* The library has its header's version, as a text and as numbers. */
static void version(void)
{
    char numbers[64];
    same("version", strcmp(str_indices_version(), STR_INDICES_VERSION) == 0, 1);
    snprintf(numbers, sizeof numbers, "%d.%d.%d", STR_INDICES_VERSION_NUMBER / 1000000,
             STR_INDICES_VERSION_NUMBER / 1000 % 1000, STR_INDICES_VERSION_NUMBER % 1000);
    same("version by its number", strcmp(numbers, STR_INDICES_VERSION) == 0, 1);
}

static const char *answered_by_the_wide_half(void)
{
    if (str_indices_is_wide(0))
        return "every text";
    return str_indices_is_wide(256) ? "texts from 256 bytes on" : "no text";
}

int main(void)
{
    utf8();
    chars_and_utf16();
    line_breaks();
    the_empty_text();
    long_texts();
    longer_texts();
    version();
    printf("the wide half answers for %s\n", answered_by_the_wide_half());
    printf("%d passed, %d failed\n", passed, failed);
    return failed != 0;
}
