/*
 * Worked answers about lines and positions, with each function of the header
 * called. It is compiled as C and as C++. The last line printed is 'N passed, M
 * failed'.
 */
#include <stdio.h>

#include <str_indices_positions.h>

static int passed, failed;

static void same(int right, const char *call, size_t first, size_t second)
{
    if (right) {
        passed++;
        return;
    }
    failed++;
    printf("%s of %zu, %zu\n", call, first, second);
}

#define TEXT const char *text, size_t len
#define ASK(name, ...) str_indices_##name(text, len, __VA_ARGS__)
#include "worked_positions.h"

int main(void)
{
    ask_for_positions(lines, sizeof lines - 1);
    ask_by_kind(kinds, sizeof kinds - 1);
    printf("%d passed, %d failed\n", passed, failed);
    return failed != 0;
}
