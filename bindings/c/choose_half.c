/*
 * The functions of str_indices.h and str_indices_positions.h, each handed on to
 * one of two that answer the same: to one over vectors of sixteen bytes, for
 * any processor of the level x86-64-v2, or to one over vectors of thirty-two,
 * for the level x86-64-v3. The first are the narrow half of the library, and
 * the second the wide half.
 *
 * Where STR_INDICES_WIDE is not defined, the library has no wide half.
 */
#include <stdint.h>
#include <stdlib.h>
#include <string.h>

#include <str_indices.h>
#include <str_indices_positions.h>

/* No text is as long, since one has at most PTRDIFF_MAX bytes. */
#define NO_TEXT SIZE_MAX

/* The least length of a text that goes to the wide half. A thread that an
 * earlier constructor began may read it while it is written. */
static size_t wide_from = NO_TEXT;

static size_t least_wide(void)
{
    return __atomic_load_n(&wide_from, __ATOMIC_RELAXED);
}

bool str_indices_is_wide(size_t len)
{
    size_t least = least_wide();
    return least != NO_TEXT && len >= least;
}

/* The version behind the library's name, by which a build finds it in the file. */
static const char named_version[] = "str_indices " STR_INDICES_VERSION;

const char *str_indices_version(void)
{
    return named_version + sizeof "str_indices";
}

#ifdef STR_INDICES_WIDE
#include <cpuid.h>

/* The length from which on most functions take the wide half less time. */
enum { WORTH_WIDE = 256 };

/* What x86-64-v3 has that x86-64-v2 has not, by the bits of the cpuid
 * instruction. A processor below x86-64-v2 runs no half. */
enum {
    /* leaf 1, ecx */
    FMA = 1 << 12,
    MOVBE = 1 << 22,
    OSXSAVE = 1 << 27,
    AVX = 1 << 28,
    F16C = 1 << 29,
    /* leaf 7, ebx */
    BMI1 = 1 << 3,
    AVX2 = 1 << 5,
    BMI2 = 1 << 8,
    /* leaf 0x80000001, ecx */
    LZCNT = 1 << 5,
    /* register 0 of xgetbv */
    SAVED_VECTORS = 1 << 1 | 1 << 2
};

static bool has_all(unsigned bits, unsigned wanted)
{
    return (bits & wanted) == wanted;
}

/* Whether the system keeps vectors of sixteen and of thirty-two bytes for each
 * thread. The instruction is there where OSXSAVE is. */
static bool keeps_vectors(void)
{
    unsigned low, high;
    __asm__ volatile("xgetbv" : "=a"(low), "=d"(high) : "c"(0));
    (void)high;
    return has_all(low, SAVED_VECTORS);
}

/* Asks by instructions alone, so that no function of the compiler's library is
 * wanted, which not every program is linked with. */
static bool is_x86_64_v3(void)
{
    unsigned a, b, c, d;
    if (!__get_cpuid(1, &a, &b, &c, &d) || !has_all(c, FMA | MOVBE | OSXSAVE | AVX | F16C) || !keeps_vectors())
        return false;
    if (!__get_cpuid_count(7, 0, &a, &b, &c, &d) || !has_all(b, BMI1 | AVX2 | BMI2))
        return false;
    return __get_cpuid(0x80000001, &a, &b, &c, &d) && has_all(c, LZCNT);
}

/* Asks the processor, once, before main runs. */
__attribute__((constructor)) static void choose_half(void)
{
    const char *half = getenv("STR_INDICES_HALF");
    bool always = half != NULL && strcmp(half, "wide") == 0;

    if (!is_x86_64_v3() || (half != NULL && strcmp(half, "narrow") == 0))
        return;
    __atomic_store_n(&wide_from, always ? 0 : WORTH_WIDE, __ATOMIC_RELAXED);
}

#define WHERE_WIDE(times, answer) \
    if (len / (times) >= least_wide()) \
        return answer;
#else
#define WHERE_WIDE(times, answer)
#endif

/* No program sees a half, also in a shared object. */
#define HALF __attribute__((visibility("hidden")))

#define HAND_ON(type, times, name, parameters, arguments) \
    HALF type str_indices_narrow_##name parameters; \
    HALF type str_indices_wide_##name parameters; \
    type str_indices_##name parameters \
    { \
        WHERE_WIDE(times, str_indices_wide_##name arguments) \
        return str_indices_narrow_##name arguments; \
    }

#define TELL(name) HAND_ON(bool, 1, name, (const char *text, size_t len), (text, len))
#define COUNT(name) HAND_ON(size_t, 1, name, (const char *text, size_t len), (text, len))
#define CONVERT(name) HAND_ON(size_t, 1, name, (const char *text, size_t len, size_t index), (text, len, index))

/* The functions of a scheme, of which the first counts. */
#define SCHEME(scheme, counting) \
    COUNT(scheme##_##counting) \
    CONVERT(scheme##_from_byte_idx) \
    CONVERT(scheme##_to_byte_idx)

TELL(is_utf8)
COUNT(valid_up_to)

SCHEME(chars, count)
SCHEME(utf16, count)
COUNT(utf16_count_surrogates)
SCHEME(lines_lf, count_breaks)
SCHEME(lines_crlf, count_breaks)
SCHEME(lines, count_breaks)

/* Each of these looks for a place besides, where a line begins or ends, and
 * reads a line or two, which is most often a few vectors. The wide half takes
 * less time for texts that are as many times as long. */
enum { LONGER_BY_LINE = 6 };

#define TEXT const char *text, size_t len, str_indices_line_type lines
#define OF_LINE(type, name) HAND_ON(type, LONGER_BY_LINE, name, (TEXT, size_t line_idx), (text, len, lines, line_idx))
#define OF_PLACE(type, name, argument) \
    HAND_ON(type, LONGER_BY_LINE, name, (TEXT, str_indices_encoding encoding, argument place), \
            (text, len, lines, encoding, place))

OF_LINE(str_indices_bytes, line)
OF_LINE(size_t, line_end)

OF_PLACE(str_indices_position, position_of, size_t)
OF_PLACE(str_indices_position, exact_position_of, size_t)
OF_PLACE(str_indices_range, range_of, str_indices_bytes)
OF_PLACE(size_t, byte_of, str_indices_position)
OF_PLACE(size_t, exact_byte_of, str_indices_position)
OF_PLACE(str_indices_bytes, byte_range, str_indices_range)
