/*
 * Two pictures in both editions of the rules. The first has six codels:
 *
 *     red     white   white
 *     white   black   white
 *
 * The run starts at red, facing right, and white is ahead: a slide begins. It goes along the first row to its end and
 * turns down, then it goes up and down at the edge, for black is the only other way, and comes to no colour: it is lost.
 * There the editions part.
 *
 * Edition 1 has the rules of the Rust program: a lost slide is an attempt like others that fail, and the next is made.
 * Facing down there is a slide that turns twice and comes back to red. That is a step, and it is made again up to the
 * limit. Edition 2 has those of the public page: where a run comes to a lost slide it is over.
 *
 * The second is the white spiral of examples/spiral9.txt, between black walls, with nine right turns to a red codel in
 * the middle. In edition 1 a slide is lost at its eighth turn, so that this one is, and no attempt is left. In edition 2
 * it is lost only where it comes back to a codel with a dp that it had there: it lands in the middle.
 *
 *     tools/archive
 *     gcc examples/c/editions.c -Iinclude -Ltarget/staticlib -lpiet_c -o editions
 *     ./editions | diff examples/c/editions.out -
 */
#include <inttypes.h>
#include <stdio.h>

#include "piet.h"
#include "told.h"

enum { CODEL = 1, STACK = 16, OUTPUTS = 16 };

/* The codels of the larger picture; the smaller one has room enough too. */
#define CODELS ((size_t)80)

/* A picture is drawn row by row: R is red, # is black, every other codel is white. */
struct drawing {
    size_t height, width;
    const char *codels;
};

static const struct drawing six_codels = {2, 3, "R.."
                                                ".#."};

static const struct drawing spiral = {10, 8, "R......."
                                             "#######."
                                             "......#."
                                             ".####.#."
                                             ".#..#.#."
                                             ".#.R#.#."
                                             ".#.##.#."
                                             ".#....#."
                                             ".######."
                                             "........"};

/* The table of a picture, as piet_build fills it. */
struct table {
    size_t regions;
    uint32_t map[CODELS], rows[PIET_ROW * CODELS], exits[PIET_EXITS * CODELS], work[CODELS];
};

/* False where the call was refused; its number is printed. */
static bool done(uint32_t number)
{
    if (number != PIET_DONE)
        printf("refused %" PRIu32 "\n", number);
    return number == PIET_DONE;
}

static uint8_t colour_of(char drawn)
{
    return drawn == 'R' ? PIET_RED : drawn == '#' ? PIET_BLACK : PIET_WHITE;
}

static bool build(const struct drawing *drawing, uint32_t edition, struct table *table)
{
    uint8_t colours[CODELS];
    uint64_t answer[PIET_BUILD_ANSWER];
    size_t count = drawing->height * drawing->width;
    for (size_t i = 0; i < count; i++)
        colours[i] = colour_of(drawing->codels[i]);
    uint32_t number = piet_build(colours, count, drawing->height, drawing->width, CODEL, edition, table->map, CODELS,
                                 table->rows, PIET_ROW * CODELS, table->exits, PIET_EXITS * CODELS,
                                 table->work, CODELS, answer, PIET_BUILD_ANSWER);
    table->regions = (size_t)answer[0];
    return done(number);
}

static void run(uint32_t edition, uint64_t limit, const struct table *table)
{
    const uint8_t no_input[1] = {0}; /* an empty slice has a pointer too */
    uint8_t kinds[OUTPUTS];
    int64_t stack[STACK], values[OUTPUTS];
    uint64_t answer[PIET_RUN_ANSWER];
    uint32_t number = piet_run(table->regions, table->rows, PIET_ROW * CODELS, table->exits, PIET_EXITS * CODELS,
                               edition, limit, false, no_input, 0, stack, STACK, kinds, OUTPUTS, values, OUTPUTS,
                               answer, PIET_RUN_ANSWER);
    const struct told told = {answer, table->rows, stack, kinds, values};
    if (done(number))
        print_told(&told);
}

/* What becomes of the attempts to leave red, by dp and cc: an open one has the pointers after the move. */
static void print_exits(const struct table *table)
{
    static const char *const directions[] = {"right", "down", "left", "up"}, *const sides[] = {"left", "right"};
    for (uint32_t state = 0; state < PIET_EXITS; state++) {
        uint32_t exit = table->exits[state];
        printf("  %s %s: ", directions[state / 2], sides[state % 2]);
        if (exit == 0)
            printf("not open\n");
        else if (exit == PIET_EXIT_LOST)
            printf("a lost slide\n");
        else
            printf("to region %" PRIu32 ", %s %s\n", PIET_EXIT_TARGET(exit), directions[PIET_EXIT_STATE(exit) / 2],
                   sides[PIET_EXIT_STATE(exit) % 2]);
    }
}

/* Builds in one edition, tells the ways out of the red codel at (0,0), and runs. False where building is refused. */
static bool show(const struct drawing *drawing, uint32_t edition, uint64_t limit, struct table *table)
{
    if (!build(drawing, edition, table))
        return false;
    print_exits(table);
    run(edition, limit, table);
    return true;
}

int main(void)
{
    struct table by_rust, by_page, by_none;

    printf("edition 1, the Rust program: the ways out of red\n");
    if (!show(&six_codels, PIET_EDITION_RUST, 9, &by_rust))
        return 1;

    printf("\nedition 2, the public page: the ways out of red\n");
    if (!show(&six_codels, PIET_EDITION_PAGE, 9, &by_page))
        return 1;

    /* A table is run by its exits as they stand: in that of edition 1
     * a lost slide is not open, and the next attempt is made. */
    printf("\nthe table of edition 1, run in edition 2\n");
    run(PIET_EDITION_PAGE, 9, &by_rust);

    /* In edition 1 there is no lost slide in a table, so that this is no table: refusal 10. */
    printf("\nthe table of edition 2, run in edition 1\n");
    run(PIET_EDITION_RUST, 9, &by_page);

    /* One step is enough for the spiral: the whole slide. */
    printf("\nthe spiral in edition 1\n");
    if (!show(&spiral, PIET_EDITION_RUST, 1, &by_rust))
        return 1;
    printf("\nthe spiral in edition 2\n");
    if (!show(&spiral, PIET_EDITION_PAGE, 1, &by_page))
        return 1;

    /* Other numbers name no edition, and none is taken for granted: refusal 15. */
    printf("\nedition 0\n");
    return build(&six_codels, 0, &by_none) ? 1 : 0;
}
