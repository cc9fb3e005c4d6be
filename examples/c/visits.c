/*
 * A picture shaded by how often a run entered each of its blocks. It is a student's, who was to read a number and write the
 * numbers from it down to 1:
 *
 *     nr lb lg ny dy lg lr dg nb dy ny
 *     bk wh wh wh wh wh wh wh wh wh ny
 *     bk bk bk bk bk bk bk bk bk bk ny
 *     bk bk bk bk bk bk bk bk bk ny ny
 *
 * From red to light blue is IntIn. Then a round goes along the first row: Dup, IntOut, Push 1, Sub, Dup, Not, Not and Ptr,
 * to the second dark yellow block. What is left was made 1 or 0: 1 turns dp down, and a slide over the white leads back to
 * light blue; with 0 the run goes on to the last block, which has no way out.
 *
 * From 3 every coloured block is entered, those of the loop three times. From 0 the last block never is: 0 is written before it is
 * tested, -1 is left, and the run ends at its limit. The counts show the loop, and the list shows what the run missed.
 *
 *     tools/archive
 *     gcc examples/c/visits.c -Iinclude -Ltarget/staticlib -lpiet_c -o visits
 *     ./visits | diff examples/c/visits.out -
 */
#include <inttypes.h>
#include <stdio.h>
#include <stdlib.h>
#include <string.h>

#include "piet.h"
#include "told.h"

enum { HEIGHT = 4, WIDTH = 11, CODEL = 1, STACK = 16, OUTPUTS = 16, LIMIT = 100 };

#define CODELS ((size_t)HEIGHT * WIDTH)

/* The words are those of the text grids: dark, normal or light with the hue, or black or white. Each takes three places. */
static const char drawing[] = "nr lb lg ny dy lg lr dg nb dy ny "
                              "bk wh wh wh wh wh wh wh wh wh ny "
                              "bk bk bk bk bk bk bk bk bk bk ny "
                              "bk bk bk bk bk bk bk bk bk ny ny ";

/* The table of the picture, as piet_build fills it. There are at most as many regions as codels. */
struct table {
    size_t regions;
    uint32_t map[CODELS], rows[PIET_ROW * CODELS], exits[PIET_EXITS * CODELS], work[CODELS];
};

/* A run, as piet_visits leaves it. */
struct run {
    uint64_t answer[PIET_VISITS_ANSWER], visits[CODELS];
    uint32_t unvisited[CODELS];
    int64_t stack[STACK], values[OUTPUTS];
    uint8_t kinds[OUTPUTS];
};

/* A refusal is a number; nothing but the answer was written, so there is nothing to go on with. */
static void expect_done(uint32_t number)
{
    if (number != PIET_DONE) {
        printf("refused %" PRIu32 "\n", number);
        exit(1);
    }
}

static uint8_t colour_of(const char *word)
{
    static const char shades[] = "dnl", hues[] = "rygcbm";
    if (word[0] == 'b')
        return PIET_BLACK;
    if (word[0] == 'w')
        return PIET_WHITE;
    return (uint8_t)(6 * (strchr(shades, word[0]) - shades) + (strchr(hues, word[1]) - hues));
}

static void build(struct table *table)
{
    uint8_t colours[CODELS];
    uint64_t answer[PIET_BUILD_ANSWER];
    for (size_t i = 0; i < CODELS; i++)
        colours[i] = colour_of(drawing + 3 * i);
    expect_done(piet_build(colours, CODELS, HEIGHT, WIDTH, CODEL, PIET_EDITION_RUST, table->map, CODELS,
                           table->rows, PIET_ROW * CODELS, table->exits, PIET_EXITS * CODELS, table->work, CODELS,
                           answer, PIET_BUILD_ANSWER));
    table->regions = (size_t)answer[0];
}

static uint32_t count_visits(const struct table *table, const char *input, uint64_t limit, struct run *run)
{
    return piet_visits(table->regions, table->rows, PIET_ROW * CODELS, table->exits, PIET_EXITS * CODELS,
                       PIET_EDITION_RUST, limit, false, (const uint8_t *)input, strlen(input), run->stack, STACK,
                       run->kinds, OUTPUTS, run->values, OUTPUTS, run->visits, CODELS, run->unvisited, CODELS,
                       run->answer, PIET_VISITS_ANSWER);
}

/* The picture with each block's count in its codels; # is black, and . is white. */
static void print_shades(const struct table *table, const struct run *run)
{
    for (size_t i = 0; i < CODELS; i++) {
        uint32_t region = table->map[i], colour = table->rows[PIET_ROW * region];
        if (colour == PIET_BLACK || colour == PIET_WHITE)
            printf("  %c", colour == PIET_BLACK ? '#' : '.');
        else
            printf("%3" PRIu64, run->visits[region]);
        if (i % WIDTH == WIDTH - 1)
            printf("\n");
    }
}

/* The nodes, which the last cell of a row marks: the blocks that were found from the first one. */
static void print_counts(const struct table *table, const struct run *run)
{
    uint64_t sum = 0;
    for (size_t region = 0; region < table->regions; region++) {
        sum += run->visits[region];
        if (table->rows[PIET_ROW * region + 4] == 1) {
            printf("%3" PRIu64, run->visits[region]);
            print_label(table->rows, region);
            printf("\n");
        }
    }
    printf("%3" PRIu64 " together: the start, and each step\n", sum);
}

static void print_unvisited(const struct table *table, const struct run *run)
{
    uint64_t count = run->answer[PIET_RUN_UNVISITED];
    printf("never entered %" PRIu64, count);
    for (uint64_t i = 0; i < count; i++)
        print_label(table->rows, run->unvisited[i]);
    printf("\n");
}

static void show(const struct table *table, const char *input)
{
    struct run run;
    expect_done(count_visits(table, input, LIMIT, &run));
    const struct told told = {run.answer, table->rows, run.stack, run.kinds, run.values};
    print_told(&told);
    print_shades(table, &run);
    print_counts(table, &run);
    print_unvisited(table, &run);
}

int main(void)
{
    struct table table;
    struct run run;
    build(&table);
    printf("from 3\n");
    show(&table, "3\n");
    printf("\nfrom 0\n");
    show(&table, "0\n");

    /* A block may be entered once more than there are steps, and with the largest limit of all that need not fit a
     * count: refusal 16. */
    uint32_t number = count_visits(&table, "3\n", UINT64_MAX, &run);
    printf("\nup to 2^64 - 1 steps\nrefused %" PRIu32 "\n", number);
    return number == PIET_REFUSED_LIMIT ? 0 : 1;
}
