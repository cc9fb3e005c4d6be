/*
 * Why number lines were skipped: twelve steps that would read a number each. The table is made by hand, of one region that
 * IntIn leads back to.
 *
 *     tools/archive
 *     gcc examples/c/skipped.c -Iinclude -Ltarget/staticlib -lpiet_c -o skipped
 *     ./skipped | diff examples/c/skipped.out -
 */
#include <inttypes.h>
#include <stdio.h>

#include "piet.h"
#include "told.h"

enum { STACK = 16, OUTPUTS = 16, LIMIT = 12 };

static const uint32_t rows[PIET_ROW] = {PIET_RED, 1, 0, 0, 1};
static const uint32_t exits[PIET_EXITS] = {1 + 524288 * PIET_INT_IN};

/* The first line and the third are numbers, and the last is 2^63. Four steps find no line. */
static const char lines[] = "5\nseven\n -7 \n7.0\n\n \n\t\n9223372036854775808\n";

int main(void)
{
    uint8_t kinds[OUTPUTS];
    int64_t stack[STACK], values[OUTPUTS];
    uint64_t answer[PIET_RUN_ANSWER];
    uint32_t number = piet_run(1, rows, PIET_ROW, exits, PIET_EXITS, PIET_EDITION_RUST, LIMIT, false,
                               (const uint8_t *)lines, sizeof lines - 1, stack, STACK, kinds, OUTPUTS, values, OUTPUTS,
                               answer, PIET_RUN_ANSWER);
    if (number != PIET_DONE) {
        printf("refused %" PRIu32 "\n", number);
        return 1;
    }
    const struct told told = {answer, rows, stack, kinds, values};
    print_told(&told);
    return 0;
}
