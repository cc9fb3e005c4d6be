/*
 * The moves of a run, one after the other: which block was left and which entered, the pointers, and what was done. The
 * picture is a student's, which was to read numbers up to the first 0:
 *
 *     red     light blue   yellow        dark yellow
 *     white   white        white         dark yellow
 *     black   black        black         dark yellow
 *     black   black        dark yellow   dark yellow
 *
 * From red to light blue is IntIn, and from there to yellow is Ptr, which turns dp by the number that was read. 0 leaves
 * it: the run goes on to dark yellow, which has no way out. 1 turns it down, and a slide over the white leads back to red.
 * But 2 turns it to the left, and the run goes back through the blocks that it came by. Then it ends as it should, so that
 * only its moves tell.
 *
 * An exit has the pointers before its instruction: a turn shows in the move after it. There are cells for eight exits. Of
 * the last run they have the first eight, and the answer tells how many there were.
 *
 *     tools/archive
 *     gcc examples/c/history.c -Iinclude -Ltarget/staticlib -lpiet_c -o history
 *     ./history | diff examples/c/history.out -
 */
#include <inttypes.h>
#include <stdio.h>
#include <stdlib.h>
#include <string.h>

#include "piet.h"
#include "told.h"

enum { HEIGHT = 4, WIDTH = 4, CODEL = 1, STACK = 16, OUTPUTS = 16, LIMIT = 100, KEPT = 8 };

#define CODELS ((size_t)HEIGHT * WIDTH)

static const uint8_t colours[CODELS] = {
    PIET_RED,   PIET_LIGHT_BLUE, PIET_YELLOW,      PIET_DARK_YELLOW,
    PIET_WHITE, PIET_WHITE,      PIET_WHITE,       PIET_DARK_YELLOW,
    PIET_BLACK, PIET_BLACK,      PIET_BLACK,       PIET_DARK_YELLOW,
    PIET_BLACK, PIET_BLACK,      PIET_DARK_YELLOW, PIET_DARK_YELLOW,
};

/* The table of the picture, as piet_build fills it. There are at most as many regions as codels. */
struct table {
    size_t regions;
    uint32_t map[CODELS], rows[PIET_ROW * CODELS], exits[PIET_EXITS * CODELS], work[CODELS];
};

/* A run, as piet_history leaves it. */
struct run {
    uint64_t answer[PIET_RUN_ANSWER];
    uint32_t taken[KEPT];
    int64_t stack[STACK], values[OUTPUTS];
    uint8_t kinds[OUTPUTS];
};

/* The pointers and the instructions by their numbers. */
static const char *const dps[] = {"right", "down", "left", "up"};
static const char *const ccs[] = {"left", "right"};
static const char *const instructions[] = {
    "none", "Push", "Pop", "Add", "Sub",  "Mul",    "Div",     "Mod",   "Not",
    "Gt",      "Ptr",  "Swi", "Dup", "Roll", "CharIn", "CharOut", "IntIn", "IntOut",
};

/* A refusal is a number; nothing but the answer was written, so there is nothing to go on with. */
static void expect_done(uint32_t number)
{
    if (number != PIET_DONE) {
        printf("refused %" PRIu32 "\n", number);
        exit(1);
    }
}

static void build(struct table *table)
{
    uint64_t answer[PIET_BUILD_ANSWER];
    expect_done(piet_build(colours, CODELS, HEIGHT, WIDTH, CODEL, PIET_EDITION_RUST, table->map, CODELS,
                           table->rows, PIET_ROW * CODELS, table->exits, PIET_EXITS * CODELS, table->work, CODELS,
                           answer, PIET_BUILD_ANSWER));
    table->regions = (size_t)answer[0];
}

static void keep_exits(const struct table *table, const char *input, struct run *run)
{
    expect_done(piet_history(table->regions, table->rows, PIET_ROW * CODELS, table->exits, PIET_EXITS * CODELS,
                             PIET_EDITION_RUST, LIMIT, false, (const uint8_t *)input, strlen(input), run->stack, STACK,
                             run->kinds, OUTPUTS, run->values, OUTPUTS, run->taken, KEPT,
                             run->answer, PIET_RUN_ANSWER));
}

/* Each move leaves the block that the one before it entered; the first leaves region 0, where a run starts. */
static void print_moves(const struct table *table, const uint32_t *taken, uint64_t count)
{
    uint32_t left = 0;
    for (uint64_t i = 0; i < count; i++) {
        uint32_t entered = PIET_EXIT_TARGET(taken[i]), state = PIET_EXIT_STATE(taken[i]);
        printf("%3" PRIu64, i + 1);
        print_label(table->rows, left);
        printf(" ->");
        print_label(table->rows, entered);
        printf(", dp %s, cc %s: %s\n", dps[state / 2], ccs[state % 2], instructions[PIET_EXIT_INSTRUCTION(taken[i])]);
        left = entered;
    }
}

static void show(const struct table *table, const char *input)
{
    struct run run;
    keep_exits(table, input, &run);
    const struct told told = {run.answer, table->rows, run.stack, run.kinds, run.values};
    print_told(&told);
    uint64_t steps = run.answer[PIET_RUN_STEPS], kept = KEPT;
    uint64_t count = steps < kept ? steps : kept;
    print_moves(table, run.taken, count);
    if (count < steps)
        printf("    and %" PRIu64 " more\n", steps - count);
}

int main(void)
{
    struct table table;
    build(&table);
    printf("1 and 0\n");
    show(&table, "1\n0\n");
    printf("\n2 and 0\n");
    show(&table, "2\n0\n");
    printf("\n1 four times and 0\n");
    show(&table, "1\n1\n1\n1\n0\n");
    return 0;
}
