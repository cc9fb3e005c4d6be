/*
 * The smallest job call by call, as a program that keeps the table would make it: light red and red, three steps. picture.c
 * does the same in one call.
 *
 *     tools/archive
 *     gcc examples/c/worked.c -Iinclude -Ltarget/staticlib -lpiet_c -o worked
 *     ./worked | diff examples/c/worked.out -
 */
#include <inttypes.h>
#include <stdio.h>
#include <stdlib.h>

#include "piet.h"
#include "told.h"

enum { HEIGHT = 1, WIDTH = 2, CODEL = 1, CODELS = HEIGHT * WIDTH, STACK = 16, OUTPUTS = 16, LIMIT = 3 };

/* The table of the picture, as piet_build fills it. */
struct table {
    size_t regions;
    uint32_t map[CODELS], rows[PIET_ROW * CODELS], exits[PIET_EXITS * CODELS], work[CODELS];
};

struct run {
    uint64_t answer[PIET_RUN_ANSWER];
    int64_t stack[STACK], values[OUTPUTS];
    uint8_t kinds[OUTPUTS];
};

/* A refusal is a number; nothing but the answer was written, so there is nothing to go on with. */
static void expect_done(uint32_t number)
{
    if (number != PIET_DONE) {
        printf("refused %" PRIu32 "\n", number);
        exit(1);
    }
}

static void classify_and_build(const uint8_t *pixels, struct table *table)
{
    uint8_t colours[CODELS];
    uint64_t answer[PIET_BUILD_ANSWER];
    expect_done(piet_classify(pixels, 3 * CODELS, HEIGHT, WIDTH, PIET_UNKNOWN_REFUSED, colours, CODELS, answer,
                              PIET_CLASSIFY_ANSWER));
    expect_done(piet_build(colours, CODELS, HEIGHT, WIDTH, CODEL, PIET_EDITION_RUST, table->map, CODELS,
                           table->rows, PIET_ROW * CODELS, table->exits, PIET_EXITS * CODELS, table->work, CODELS,
                           answer, PIET_BUILD_ANSWER));
    table->regions = answer[0];
}

static void run_table(const struct table *table, struct run *run)
{
    const uint8_t no_input[1] = {0}; /* an empty slice has a pointer too */
    expect_done(piet_run(table->regions, table->rows, PIET_ROW * CODELS, table->exits, PIET_EXITS * CODELS,
                         PIET_EDITION_RUST, LIMIT, false, no_input, 0, run->stack, STACK, run->kinds, OUTPUTS,
                         run->values, OUTPUTS, run->answer, PIET_RUN_ANSWER));
}

int main(void)
{
    static const uint8_t pixels[3 * CODELS] = {0xFF, 0xC0, 0xC0, 0xFF, 0x00, 0x00};
    struct table table;
    struct run run;
    classify_and_build(pixels, &table);
    run_table(&table, &run);
    const struct told told = {run.answer, table.rows, run.stack, run.kinds, run.values};
    print_told(&told);
    return 0;
}
