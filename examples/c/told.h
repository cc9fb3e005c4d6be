/*
 * What a run told, printed as the run program prints it; where IntIn skipped lines, a line more says why. For the programs
 * beside this file.
 */
#ifndef TOLD_H
#define TOLD_H

#include <inttypes.h>
#include <stdio.h>

#include "piet.h"

/* What a run leaves: its answer, the rows of its table, and the slices that it was lent. */
struct told {
    const uint64_t *answer;
    const uint32_t *rows;
    const int64_t *stack;
    const uint8_t *kinds;
    const int64_t *values;
};

/* The label of a region of these rows, after a blank. */
static void print_label(const uint32_t *rows, uint64_t region)
{
    const uint32_t *row = rows + PIET_ROW * region;
    uint8_t label[PIET_LABEL_ROOM];
    uint64_t length = 0;
    piet_label((uint8_t)row[0], row[2], row[3], label, PIET_LABEL_ROOM, &length, PIET_LABEL_ANSWER);
    printf(" %.*s", (int)length, (const char *)label);
}

static void print_place(const struct told *told)
{
    const uint64_t *answer = told->answer;
    printf("at");
    print_label(told->rows, answer[PIET_RUN_REGION]);
    printf(" %" PRIu64 " %" PRIu64 "\n", answer[PIET_RUN_DP], answer[PIET_RUN_CC]);
}

/* The stack with its top first. */
static void print_stack(const struct told *told)
{
    uint64_t depth = told->answer[PIET_RUN_DEPTH];
    printf("stack %" PRIu64, depth);
    for (uint64_t i = depth; i > 0; i--)
        printf(" %" PRId64, told->stack[i - 1]);
    printf("\n");
}

static void print_outputs(const struct told *told)
{
    uint64_t count = told->answer[PIET_RUN_OUTPUTS];
    printf("out %" PRIu64, count);
    for (uint64_t i = 0; i < count; i++)
        printf(" %c%" PRId64, told->kinds[i] == PIET_CHAR ? 'c' : 'i', told->values[i]);
    printf("\n");
}

/* The reasons for which lines were skipped, each with its count; nothing where no line was. */
static void print_skipped(const struct told *told)
{
    static const struct {
        enum piet_run_cell cell;
        const char *name;
    } reasons[] = {
        {PIET_RUN_SKIPPED_ENDED, "ended"},
        {PIET_RUN_SKIPPED_BLANK, "blank"},
        {PIET_RUN_SKIPPED_NOT_NUMBER, "not_number"},
        {PIET_RUN_SKIPPED_OUT_OF_RANGE, "out_of_range"},
    };
    bool any = false;
    for (size_t i = 0; i < sizeof reasons / sizeof *reasons; i++) {
        uint64_t count = told->answer[reasons[i].cell];
        if (count > 0) {
            printf("%s %s=%" PRIu64, any ? "" : "skipped", reasons[i].name, count);
            any = true;
        }
    }
    if (any)
        printf("\n");
}

static void print_told(const struct told *told)
{
    printf("status %" PRIu64 "\nsteps %" PRIu64 "\n", told->answer[PIET_RUN_STATUS], told->answer[PIET_RUN_STEPS]);
    print_place(told);
    print_stack(told);
    print_outputs(told);
    print_skipped(told);
}

#endif
