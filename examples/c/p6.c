/*
 * Runs a picture from a Netpbm P6 file, as a marker of pictures would, and prints what the run told, or `refused N`. With
 * a second name the picture is written there again as P6, in its shortest form.
 *
 *     tools/archive
 *     gcc examples/c/p6.c -Iinclude -Ltarget/staticlib -lpiet_c -o p6
 *     ./p6 examples/hello.ppm copy.ppm | diff examples/hello.out -
 *     ./p6 copy.ppm | diff examples/hello.out -
 */
#include <inttypes.h>
#include <stdio.h>
#include <stdlib.h>

#include "piet.h"
#include "told.h"

/* Room for the largest picture; each pixel is a codel. A file may have 4 MB, long comments included. */
enum { SIDE = 1024, CODEL = 1, CODELS = 65536, FILE_ROOM = 4 << 20, STACK = 256, OUTPUTS = 256, LIMIT = 1000000 };

static uint8_t file[FILE_ROOM], pixels[3 * SIDE * SIDE], colours[SIDE * SIDE], kinds[OUTPUTS];
static uint32_t map[CODELS], rows[PIET_ROW * CODELS], exits[PIET_EXITS * CODELS], work[CODELS];
static int64_t stack[STACK], values[OUTPUTS];
static uint64_t answer[PIET_RUN_PICTURE_ANSWER];

/* The sides of the picture whose pixels stand in `pixels`. */
struct sides {
    size_t height, width;
};

static void die(const char *why, const char *name)
{
    fprintf(stderr, "p6: %s: %s\n", why, name);
    exit(2);
}

/* A refusal is a number; nothing but the answer was written, so there is nothing to go on with. */
static void expect_done(uint32_t number)
{
    if (number != PIET_DONE) {
        printf("refused %" PRIu32 "\n", number);
        exit(1);
    }
}

/* The bytes of a file into `file`. Where they fill it there may be more. */
static size_t load(const char *name)
{
    FILE *stream = fopen(name, "rb");
    if (!stream)
        die("can't open", name);
    size_t length = fread(file, 1, FILE_ROOM, stream);
    if (ferror(stream))
        die("can't read", name);
    if (length == FILE_ROOM)
        die("too long", name);
    fclose(stream);
    return length;
}

static struct sides read_picture(size_t length)
{
    uint64_t found[PIET_READ_P6_ANSWER];
    expect_done(piet_read_p6(file, length, pixels, sizeof pixels, found, PIET_READ_P6_ANSWER));
    struct sides sides = {(size_t)found[0], (size_t)found[1]};
    return sides;
}

static void run_picture(struct sides sides)
{
    const uint8_t no_input[1] = {0}; /* an empty slice has a pointer too */
    expect_done(piet_run_picture(pixels, 3 * sides.height * sides.width, sides.height, sides.width,
                                 PIET_UNKNOWN_REFUSED, CODEL, PIET_EDITION_RUST, LIMIT, false, no_input, 0,
                                 colours, sizeof colours, map, CODELS, rows, PIET_ROW * CODELS,
                                 exits, PIET_EXITS * CODELS, work, CODELS, stack, STACK, kinds, OUTPUTS,
                                 values, OUTPUTS, answer, PIET_RUN_PICTURE_ANSWER));
}

/* The picture as P6 into `file`, whose room suffices for every picture, and from there into a file of this name. */
static void write_picture(struct sides sides, const char *name)
{
    uint64_t length;
    expect_done(piet_write_p6(pixels, 3 * sides.height * sides.width, sides.height, sides.width, file, FILE_ROOM,
                              &length, PIET_WRITE_P6_ANSWER));
    FILE *stream = fopen(name, "wb");
    if (!stream)
        die("can't open", name);
    size_t written = fwrite(file, 1, (size_t)length, stream);
    if (fclose(stream) != 0 || written != length)
        die("can't write", name);
}

int main(int count, char **names)
{
    if (count != 2 && count != 3)
        die("usage", "p6 PICTURE.ppm [COPY.ppm]");
    struct sides sides = read_picture(load(names[1]));
    if (count == 3)
        write_picture(sides, names[2]);
    run_picture(sides);
    const struct told told = {answer, rows, stack, kinds, values};
    print_told(&told);
    return 0;
}
