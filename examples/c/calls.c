/*
 * Every function of the library, with each argument by its name in piet.h: once done, a run also with lines that are
 * skipped, once refused for too short an answer, and some refused for another reason. The calls are those of the program
 * crates/c_calls, which makes them by position, and so is what is printed:
 *
 *     tools/archive
 *     gcc examples/c/calls.c -Iinclude -Ltarget/staticlib -lpiet_c -o calls
 *     ./calls | diff crates/c_calls/stdout -
 *
 * tools/test_header does this, and sees to it that each call passes the header's names in the header's order.
 */
#include <inttypes.h>
#include <stdio.h>

#include "piet.h"

#define COUNT(array) (sizeof(array) / sizeof *(array))

/* Every cell of a lent slice is set before the call and printed after it. */
#define FILL(array, value)                          \
    do {                                            \
        for (size_t i = 0; i < COUNT(array); i++)   \
            (array)[i] = (value);                   \
    } while (0)

#define PRINT(name, slice, length)                      \
    do {                                                \
        printf("  %s", (name));                         \
        for (size_t i = 0; i < (length); i++)           \
            printf(" %" PRIu64, (uint64_t)(slice)[i]);  \
        printf("\n");                                   \
    } while (0)

enum { HEIGHT = 3, WIDTH = 5, CODEL = 2, REGIONS = 4 };

/* A number that no edition has. */
enum { NO_EDITION = 3 };

/* The pixel (2,1) has none of the twenty colours. */
static const uint8_t pixels[3 * HEIGHT * WIDTH] = {
    255, 0, 0, 0, 0, 0, 192, 192, 255, 0, 0, 0, 0, 255, 255, /* red, light blue and cyan, with black between them */
    0,   0, 0, 0, 0, 0, 0,   0,   0,   0, 0, 0, 0, 0,   0,
    255, 0, 0, 1, 2, 3, 255, 255, 255, 0, 0, 0, 0, 255, 255, /* red, white, cyan */
};

static const uint8_t known[HEIGHT * WIDTH] = {6, 18, 16, 18, 9, 18, 18, 18, 18, 18, 6, 18, 19, 18, 9};

static const uint32_t row_cells[] = {
    6,  2, 0, 0, 1,
    16, 1, 0, 2, 1,
    9,  2, 0, 4, 1,
    19, 1, 2, 2, 0,
};

static const uint32_t exit_cells[] = {
    8388610, 65539,   0,      0,      0,       0,       0, 0,
    8912899, 8978435, 327681, 262145, 3932161, 3997697, 0, 0,
    0,       0,       0,      0,      262145,  2949122, 0, 0,
    0,       0,       0,      0,      0,       0,       0, 0,
};

/* What a run reads, and its most steps. The zero at a text's end is not read. */
struct terms {
    const uint8_t *input;
    size_t input_length;
    uint64_t limit;
};

static const uint8_t number_lines[] = "7\n300\n5\n";
static const struct terms numbers = {number_lines, COUNT(number_lines) - 1, 4};

/* The first line alone, up to one step, and up to the limit under which visits are not counted. */
static const struct terms one_number = {number_lines, 2, 1};
static const struct terms no_limit = {number_lines, 2, UINT64_MAX};

/* Three are blank, two are no numbers, one is out of range, and after them five steps find the input ended. */
static const uint8_t other_lines[] = "\n\n\nx\nx\n9223372036854775808\n";
static const struct terms skipped = {other_lines, COUNT(other_lines) - 1, 31};

/* A P6 file of 1 x 2 pixels; it has the width first. */
static const uint8_t p6_file[17] = {
    'P', '6', ' ', '2', ' ', '1', ' ', '2', '5', '5', '\n',
    'a', 'b', 'c', 'd', 'e', 'f',
};

/* What building is lent, and what a run is. */
struct table {
    uint32_t map[7], rows[31], exits[49], work[8];
};

struct room {
    int64_t stack[5], values[4];
    uint8_t kinds[3];
};

static void fill_table(struct table *table)
{
    FILL(table->map, 82);
    FILL(table->rows, 83);
    FILL(table->exits, 84);
    FILL(table->work, 85);
}

static void fill_room(struct room *room)
{
    FILL(room->stack, 86);
    FILL(room->kinds, 87);
    FILL(room->values, 88);
}

static void print_returned(const char *name, uint32_t number, const uint64_t *answer, size_t answer_length)
{
    printf("%s %" PRIu32 "\n", name, number);
    PRINT("answer", answer, answer_length);
}

static void print_table(const struct table *table)
{
    PRINT("map", table->map, COUNT(table->map));
    PRINT("rows", table->rows, COUNT(table->rows));
    PRINT("exits", table->exits, COUNT(table->exits));
    PRINT("work", table->work, COUNT(table->work));
}

static void print_room(const struct room *room)
{
    PRINT("stack", room->stack, COUNT(room->stack));
    PRINT("kinds", room->kinds, COUNT(room->kinds));
    PRINT("values", room->values, COUNT(room->values));
}

struct classify_call {
    const uint8_t *pixels;
    size_t pixels_length, height, width;
    uint8_t setting, *colours;
    size_t colours_length;
    uint64_t *answer;
    size_t answer_length;
};

static void classify(uint8_t setting, uint64_t *answer, size_t answer_length)
{
    uint8_t colours[16];
    FILL(colours, 80);
    struct classify_call call = {
        .pixels = pixels, .pixels_length = COUNT(pixels),
        .height = HEIGHT, .width = WIDTH, .setting = setting,
        .colours = colours, .colours_length = COUNT(colours),
        .answer = answer, .answer_length = answer_length,
    };
    uint32_t number = piet_classify(call.pixels, call.pixels_length, call.height, call.width, call.setting,
                                    call.colours, call.colours_length, call.answer, call.answer_length);
    print_returned("piet_classify", number, answer, answer_length);
    PRINT("colours", colours, COUNT(colours));
}

struct label_call {
    uint8_t colour;
    size_t row, column;
    uint8_t *out;
    size_t out_length;
    uint64_t *answer;
    size_t answer_length;
};

static void label(uint64_t *answer, size_t answer_length)
{
    uint8_t out[24];
    FILL(out, 81);
    struct label_call call = {
        .colour = PIET_RED, .row = 3, .column = 12,
        .out = out, .out_length = COUNT(out),
        .answer = answer, .answer_length = answer_length,
    };
    uint32_t number = piet_label(call.colour, call.row, call.column, call.out, call.out_length,
                                 call.answer, call.answer_length);
    print_returned("piet_label", number, answer, answer_length);
    PRINT("out", out, COUNT(out));
}

struct build_call {
    const uint8_t *colours;
    size_t colours_length, height, width, codel;
    uint32_t edition, *map;
    size_t map_length;
    uint32_t *rows;
    size_t rows_length;
    uint32_t *exits;
    size_t exits_length;
    uint32_t *work;
    size_t work_length;
    uint64_t *answer;
    size_t answer_length;
};

static void build(uint32_t edition, uint64_t *answer, size_t answer_length)
{
    struct table table;
    fill_table(&table);
    struct build_call call = {
        .colours = known, .colours_length = COUNT(known),
        .height = HEIGHT, .width = WIDTH, .codel = CODEL, .edition = edition,
        .map = table.map, .map_length = COUNT(table.map),
        .rows = table.rows, .rows_length = COUNT(table.rows),
        .exits = table.exits, .exits_length = COUNT(table.exits),
        .work = table.work, .work_length = COUNT(table.work),
        .answer = answer, .answer_length = answer_length,
    };
    uint32_t number = piet_build(call.colours, call.colours_length, call.height, call.width, call.codel,
                                 call.edition, call.map, call.map_length, call.rows, call.rows_length,
                                 call.exits, call.exits_length, call.work, call.work_length,
                                 call.answer, call.answer_length);
    print_returned("piet_build", number, answer, answer_length);
    print_table(&table);
}

struct forever_call {
    size_t n;
    const uint32_t *rows;
    size_t rows_length;
    const uint32_t *exits;
    size_t exits_length;
    uint64_t *answer;
    size_t answer_length;
};

static void forever(uint64_t *answer, size_t answer_length)
{
    struct forever_call call = {
        .n = REGIONS,
        .rows = row_cells, .rows_length = COUNT(row_cells),
        .exits = exit_cells, .exits_length = COUNT(exit_cells),
        .answer = answer, .answer_length = answer_length,
    };
    uint32_t number = piet_determine_runs_forever(call.n, call.rows, call.rows_length, call.exits, call.exits_length,
                                                  call.answer, call.answer_length);
    print_returned("piet_determine_runs_forever", number, answer, answer_length);
}

struct run_call {
    size_t n;
    const uint32_t *rows;
    size_t rows_length;
    const uint32_t *exits;
    size_t exits_length;
    uint32_t edition;
    uint64_t limit;
    bool abstract_mode;
    const uint8_t *input;
    size_t input_length;
    int64_t *stack;
    size_t stack_length;
    uint8_t *kinds;
    size_t kinds_length;
    int64_t *values;
    size_t values_length;
    uint64_t *answer;
    size_t answer_length;
};

static void run(uint32_t edition, struct terms terms, uint64_t *answer, size_t answer_length)
{
    struct room room;
    fill_room(&room);
    struct run_call call = {
        .n = REGIONS,
        .rows = row_cells, .rows_length = COUNT(row_cells),
        .exits = exit_cells, .exits_length = COUNT(exit_cells),
        .edition = edition, .limit = terms.limit, .abstract_mode = false,
        .input = terms.input, .input_length = terms.input_length,
        .stack = room.stack, .stack_length = COUNT(room.stack),
        .kinds = room.kinds, .kinds_length = COUNT(room.kinds),
        .values = room.values, .values_length = COUNT(room.values),
        .answer = answer, .answer_length = answer_length,
    };
    uint32_t number = piet_run(call.n, call.rows, call.rows_length, call.exits, call.exits_length, call.edition,
                               call.limit, call.abstract_mode, call.input, call.input_length,
                               call.stack, call.stack_length, call.kinds, call.kinds_length,
                               call.values, call.values_length, call.answer, call.answer_length);
    print_returned("piet_run", number, answer, answer_length);
    print_room(&room);
}

struct visits_call {
    size_t n;
    const uint32_t *rows;
    size_t rows_length;
    const uint32_t *exits;
    size_t exits_length;
    uint32_t edition;
    uint64_t limit;
    bool abstract_mode;
    const uint8_t *input;
    size_t input_length;
    int64_t *stack;
    size_t stack_length;
    uint8_t *kinds;
    size_t kinds_length;
    int64_t *values;
    size_t values_length;
    uint64_t *visits;
    size_t visits_length;
    uint32_t *unvisited;
    size_t unvisited_length;
    uint64_t *answer;
    size_t answer_length;
};

static uint32_t pass_visits(struct visits_call call)
{
    return piet_visits(call.n, call.rows, call.rows_length, call.exits, call.exits_length, call.edition,
                       call.limit, call.abstract_mode, call.input, call.input_length,
                       call.stack, call.stack_length, call.kinds, call.kinds_length,
                       call.values, call.values_length, call.visits, call.visits_length,
                       call.unvisited, call.unvisited_length, call.answer, call.answer_length);
}

static void visits(uint32_t edition, struct terms terms, uint64_t *answer, size_t answer_length)
{
    struct room room;
    uint64_t counts[7];
    uint32_t list[6];
    fill_room(&room);
    FILL(counts, 77);
    FILL(list, 78);
    struct visits_call call = {
        .n = REGIONS,
        .rows = row_cells, .rows_length = COUNT(row_cells),
        .exits = exit_cells, .exits_length = COUNT(exit_cells),
        .edition = edition, .limit = terms.limit, .abstract_mode = false,
        .input = terms.input, .input_length = terms.input_length,
        .stack = room.stack, .stack_length = COUNT(room.stack),
        .kinds = room.kinds, .kinds_length = COUNT(room.kinds),
        .values = room.values, .values_length = COUNT(room.values),
        .visits = counts, .visits_length = COUNT(counts),
        .unvisited = list, .unvisited_length = COUNT(list),
        .answer = answer, .answer_length = answer_length,
    };
    print_returned("piet_visits", pass_visits(call), answer, answer_length);
    print_room(&room);
    PRINT("visits", counts, COUNT(counts));
    PRINT("unvisited", list, COUNT(list));
}

struct history_call {
    size_t n;
    const uint32_t *rows;
    size_t rows_length;
    const uint32_t *exits;
    size_t exits_length;
    uint32_t edition;
    uint64_t limit;
    bool abstract_mode;
    const uint8_t *input;
    size_t input_length;
    int64_t *stack;
    size_t stack_length;
    uint8_t *kinds;
    size_t kinds_length;
    int64_t *values;
    size_t values_length;
    uint32_t *taken;
    size_t taken_length;
    uint64_t *answer;
    size_t answer_length;
};

static uint32_t pass_history(struct history_call call)
{
    return piet_history(call.n, call.rows, call.rows_length, call.exits, call.exits_length, call.edition,
                        call.limit, call.abstract_mode, call.input, call.input_length,
                        call.stack, call.stack_length, call.kinds, call.kinds_length,
                        call.values, call.values_length, call.taken, call.taken_length,
                        call.answer, call.answer_length);
}

static void history(size_t n, uint32_t edition, uint32_t *taken, size_t taken_length,
                    uint64_t *answer, size_t answer_length)
{
    struct room room;
    fill_room(&room);
    struct history_call call = {
        .n = n,
        .rows = row_cells, .rows_length = COUNT(row_cells),
        .exits = exit_cells, .exits_length = COUNT(exit_cells),
        .edition = edition, .limit = numbers.limit, .abstract_mode = false,
        .input = numbers.input, .input_length = numbers.input_length,
        .stack = room.stack, .stack_length = COUNT(room.stack),
        .kinds = room.kinds, .kinds_length = COUNT(room.kinds),
        .values = room.values, .values_length = COUNT(room.values),
        .taken = taken, .taken_length = taken_length,
        .answer = answer, .answer_length = answer_length,
    };
    print_returned("piet_history", pass_history(call), answer, answer_length);
    print_room(&room);
    PRINT("taken", taken, taken_length);
}

struct run_picture_call {
    const uint8_t *pixels;
    size_t pixels_length, height, width;
    uint8_t setting;
    size_t codel;
    uint32_t edition;
    uint64_t limit;
    bool abstract_mode;
    const uint8_t *input;
    size_t input_length;
    uint8_t *colours;
    size_t colours_length;
    uint32_t *map;
    size_t map_length;
    uint32_t *rows;
    size_t rows_length;
    uint32_t *exits;
    size_t exits_length;
    uint32_t *work;
    size_t work_length;
    int64_t *stack;
    size_t stack_length;
    uint8_t *kinds;
    size_t kinds_length;
    int64_t *values;
    size_t values_length;
    uint64_t *answer;
    size_t answer_length;
};

static uint32_t pass_picture(struct run_picture_call call)
{
    return piet_run_picture(call.pixels, call.pixels_length, call.height, call.width, call.setting, call.codel,
                            call.edition, call.limit, call.abstract_mode, call.input, call.input_length,
                            call.colours, call.colours_length, call.map, call.map_length,
                            call.rows, call.rows_length, call.exits, call.exits_length,
                            call.work, call.work_length, call.stack, call.stack_length,
                            call.kinds, call.kinds_length, call.values, call.values_length,
                            call.answer, call.answer_length);
}

static void run_picture(uint32_t edition, struct terms terms, uint64_t *answer, size_t answer_length)
{
    uint8_t colours[16];
    struct table table;
    struct room room;
    FILL(colours, 80);
    fill_table(&table);
    fill_room(&room);
    struct run_picture_call call = {
        .pixels = pixels, .pixels_length = COUNT(pixels),
        .height = HEIGHT, .width = WIDTH, .setting = PIET_UNKNOWN_BLACK, .codel = CODEL,
        .edition = edition, .limit = terms.limit, .abstract_mode = false,
        .input = terms.input, .input_length = terms.input_length,
        .colours = colours, .colours_length = COUNT(colours),
        .map = table.map, .map_length = COUNT(table.map),
        .rows = table.rows, .rows_length = COUNT(table.rows),
        .exits = table.exits, .exits_length = COUNT(table.exits),
        .work = table.work, .work_length = COUNT(table.work),
        .stack = room.stack, .stack_length = COUNT(room.stack),
        .kinds = room.kinds, .kinds_length = COUNT(room.kinds),
        .values = room.values, .values_length = COUNT(room.values),
        .answer = answer, .answer_length = answer_length,
    };
    print_returned("piet_run_picture", pass_picture(call), answer, answer_length);
    PRINT("colours", colours, COUNT(colours));
    print_table(&table);
    print_room(&room);
}

struct read_p6_call {
    const uint8_t *file;
    size_t file_length;
    uint8_t *pixels;
    size_t pixels_length;
    uint64_t *answer;
    size_t answer_length;
};

static void read_p6(size_t file_length, uint64_t *answer, size_t answer_length)
{
    uint8_t lent[8];
    FILL(lent, 89);
    struct read_p6_call call = {
        .file = p6_file, .file_length = file_length,
        .pixels = lent, .pixels_length = COUNT(lent),
        .answer = answer, .answer_length = answer_length,
    };
    uint32_t number = piet_read_p6(call.file, call.file_length, call.pixels, call.pixels_length,
                                   call.answer, call.answer_length);
    print_returned("piet_read_p6", number, answer, answer_length);
    PRINT("pixels", lent, COUNT(lent));
}

struct write_p6_call {
    const uint8_t *pixels;
    size_t pixels_length, height, width;
    uint8_t *file;
    size_t file_length;
    uint64_t *answer;
    size_t answer_length;
};

static void write_p6(size_t height, uint64_t *answer, size_t answer_length)
{
    uint8_t file[58];
    FILL(file, 79);
    struct write_p6_call call = {
        .pixels = pixels, .pixels_length = COUNT(pixels),
        .height = height, .width = WIDTH,
        .file = file, .file_length = COUNT(file),
        .answer = answer, .answer_length = answer_length,
    };
    uint32_t number = piet_write_p6(call.pixels, call.pixels_length, call.height, call.width,
                                    call.file, call.file_length, call.answer, call.answer_length);
    print_returned("piet_write_p6", number, answer, answer_length);
    PRINT("file", file, COUNT(file));
}

/* The answers are one cell longer than named, or one shorter. */
static void tables(void)
{
    uint64_t one[1], two[2], three[3];
    FILL(one, 90);
    FILL(two, 91);
    FILL(three, 92);
    classify(PIET_UNKNOWN_REFUSED, three, COUNT(three));
    classify(PIET_UNKNOWN_DEFAULT, three, COUNT(three));
    classify(PIET_UNKNOWN_BLACK, three, COUNT(three));
    classify(PIET_UNKNOWN_BLACK, one, COUNT(one));
    label(two, COUNT(two));
    label(one, 0); /* an empty slice has a pointer too */
    build(PIET_EDITION_RUST, three, COUNT(three));
    build(NO_EDITION, three, COUNT(three));
    build(PIET_EDITION_RUST, one, COUNT(one));
    forever(two, COUNT(two));
    forever(one, 0);
}

/* The calls that are refused come first, so that the cells after each are those before all. */
static void histories(void)
{
    uint64_t short_run[PIET_RUN_ANSWER - 1], long_run[PIET_RUN_ANSWER + 1];
    uint32_t shorter[3], longer[6]; /* than the run, which takes four exits */
    FILL(short_run, 93);
    FILL(long_run, 95);
    FILL(shorter, 75);
    FILL(longer, 76);
    history(REGIONS + 1, PIET_EDITION_RUST, longer, COUNT(longer), long_run, COUNT(long_run));
    history(REGIONS + 1, NO_EDITION, longer, COUNT(longer), long_run, COUNT(long_run));
    history(REGIONS + 1, NO_EDITION, longer, COUNT(longer), short_run, COUNT(short_run));
    history(REGIONS, PIET_EDITION_RUST, longer, COUNT(longer), long_run, COUNT(long_run));
    history(REGIONS, PIET_EDITION_RUST, shorter, COUNT(shorter), long_run, COUNT(long_run));
}

static void runs(void)
{
    uint64_t short_run[PIET_RUN_ANSWER - 1], long_run[PIET_RUN_ANSWER + 1];
    uint64_t short_visits[PIET_VISITS_ANSWER - 1], long_visits[PIET_VISITS_ANSWER + 1];
    uint64_t short_picture[PIET_RUN_PICTURE_ANSWER - 1], long_picture[PIET_RUN_PICTURE_ANSWER + 1];
    FILL(short_run, 93);
    FILL(short_visits, 94);
    FILL(short_picture, 94);
    FILL(long_run, 95);
    FILL(long_visits, 96);
    FILL(long_picture, 96);
    run(PIET_EDITION_RUST, numbers, long_run, COUNT(long_run));
    run(PIET_EDITION_RUST, skipped, long_run, COUNT(long_run));
    run(NO_EDITION, numbers, long_run, COUNT(long_run));
    run(PIET_EDITION_RUST, numbers, short_run, COUNT(short_run));
    visits(PIET_EDITION_RUST, one_number, long_visits, COUNT(long_visits));
    visits(NO_EDITION, one_number, long_visits, COUNT(long_visits));
    visits(PIET_EDITION_RUST, no_limit, long_visits, COUNT(long_visits));
    visits(PIET_EDITION_RUST, one_number, short_visits, COUNT(short_visits));
    histories();
    run_picture(PIET_EDITION_RUST, numbers, long_picture, COUNT(long_picture));
    run_picture(PIET_EDITION_RUST, skipped, long_picture, COUNT(long_picture));
    run_picture(NO_EDITION, numbers, long_picture, COUNT(long_picture));
    run_picture(PIET_EDITION_RUST, numbers, short_picture, COUNT(short_picture));
}

static void files(void)
{
    uint64_t one[1], two[2], three[3];
    FILL(one, 90);
    FILL(two, 91);
    FILL(three, 92);
    read_p6(COUNT(p6_file), three, COUNT(three));
    read_p6(COUNT(p6_file) - 1, three, COUNT(three)); /* its last byte is missing */
    read_p6(COUNT(p6_file), one, COUNT(one));
    write_p6(HEIGHT, two, COUNT(two));
    write_p6(HEIGHT + 1, two, COUNT(two)); /* the pixels don't fit */
    write_p6(HEIGHT, one, 0);
}

int main(void)
{
    tables();
    runs();
    files();
    return 0;
}
