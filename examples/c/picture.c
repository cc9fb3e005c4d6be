/*
 * A picture run in one call: light red and red, three steps. Prints what the run program prints for examples/worked.job.
 *
 *     tools/archive
 *     gcc examples/c/picture.c -Iinclude -Ltarget/staticlib -lpiet_c -o picture
 *     ./picture | diff examples/c/worked.out -
 */
#include <inttypes.h>
#include <stdio.h>

#include "piet.h"
#include "told.h"

enum { HEIGHT = 1, WIDTH = 2, CODEL = 1, CODELS = HEIGHT * WIDTH, STACK = 16, OUTPUTS = 16, LIMIT = 3 };

/* What the call is lent; its results stand here afterwards. */
static uint8_t colours[CODELS], kinds[OUTPUTS];
static uint32_t map[CODELS], rows[PIET_ROW * CODELS], exits[PIET_EXITS * CODELS], work[CODELS];
static int64_t stack[STACK], values[OUTPUTS];
static uint64_t answer[PIET_RUN_PICTURE_ANSWER];

static uint32_t run(const uint8_t *pixels, size_t length)
{
    const uint8_t no_input[1] = {0}; /* an empty slice has a pointer too */
    return piet_run_picture(pixels, length, HEIGHT, WIDTH, PIET_UNKNOWN_REFUSED, CODEL, PIET_EDITION_RUST,
                            LIMIT, false, no_input, 0, colours, CODELS, map, CODELS, rows, PIET_ROW * CODELS,
                            exits, PIET_EXITS * CODELS, work, CODELS, stack, STACK, kinds, OUTPUTS, values, OUTPUTS,
                            answer, PIET_RUN_PICTURE_ANSWER);
}

int main(void)
{
    static const uint8_t pixels[3 * CODELS] = {0xFF, 0xC0, 0xC0, 0xFF, 0x00, 0x00};
    const struct told told = {answer, rows, stack, kinds, values};
    uint32_t number = run(pixels, sizeof pixels);
    if (number != PIET_DONE) {
        printf("refused %" PRIu32 "\n", number);
        return 1;
    }
    print_told(&told);
    return 0;
}
