/*
 * The Piet library, libpiet_c.a (made by `tools/archive`, for x86-64): from pixels to the end of a run.
 *
 *   piet_classify   pixels            -> colour numbers
 *   piet_build      colour numbers    -> the picture's table: regions and their exits
 *   piet_run        table, input      -> status, stack and outputs
 *   piet_visits     table, input      -> the same, how often each region was entered, and which nodes never were
 *   piet_history    table, input      -> the same as piet_run, and the exit that each step took
 *   piet_label      a region's colour and first pixel -> its name, as RegRed_0_1
 *   piet_determine_runs_forever       table -> whether every node has an exit
 *   piet_run_picture                  pixels, input -> the whole run: the first three in one call
 *   piet_read_p6                      a Netpbm P6 file -> pixels, height and width
 *   piet_write_p6                     pixels -> a Netpbm P6 file
 *
 * Slices. Each slice is lent as two arguments, a pointer and the number of its elements. No pointer is null, also not
 * that of an empty slice. Slices of one call do not overlap where one of them is written. No call keeps what it was
 * lent, none allocates, and none touches what lies past a slice's end.
 *
 * Editions. The rules have two editions (enum piet_edition). A call that builds or runs takes the number of one; every
 * other number, 0 too, is PIET_REFUSED_EDITION, which comes before the call's other refusals
 * (but for an answer that is too short).
 *
 * What is returned. 0 for done, else a refusal (enum piet_refusal). Any argument may be wrong: no value of a number
 * or of a lent cell does more than a refusal.
 *
 * answer. What a call answers besides the number that it returns: its values are written to the first cells of
 * `answer`, as many as are named below, and the cells after them stay as they were. An `answer` with fewer cells than
 * named returns PIET_REFUSED_ROOM before all other tests, and nothing is written. On any other refusal the named cells
 * become 0, but for the place where one is named. `answer` is the one slice that a refusal writes: every other slice
 * stays as it was.
 */
#ifndef PIET_H
#define PIET_H

#include <stdbool.h>
#include <stddef.h>
#include <stdint.h>

#ifdef __cplusplus
extern "C" {
#endif

/* What a call returns. 11 is the run program's refusal of a job; no call here returns it. */
enum piet_refusal {
    PIET_DONE = 0,
    PIET_REFUSED_SIZE = 1,     /* height or width 0 or above 1,024 */
    PIET_REFUSED_BYTES = 2,    /* pixels not 3 x height x width bytes, or colours not height x width */
    PIET_REFUSED_SETTING = 3,  /* a setting for unknown pixels above 3 */
    PIET_REFUSED_ROOM = 4,     /* too short: colours, map, rows, exits, work, visits, unvisited, a P6 call's pixels or
                                  file, or answer */
    PIET_REFUSED_PIXEL = 5,    /* setting 1: a pixel that is none of the twenty colours; its row and column */
    PIET_REFUSED_CODEL = 6,    /* codel width 0 or above 1,024 */
    PIET_REFUSED_GRID = 7,     /* more than 65,536 codels */
    PIET_REFUSED_COLOUR = 8,   /* a colour number above 19; its index */
    PIET_REFUSED_WHITE = 9,    /* pixel (0,0) is white, and a run can't start there */
    PIET_REFUSED_TABLE = 10,   /* not a valid table: see piet_run */
    PIET_REFUSED_LABEL = 12,   /* colour above 19, row or column above 1,023, or under 22 bytes lent */
    PIET_REFUSED_HEADER = 13,  /* no P6 header, or another maximum than 255 */
    PIET_REFUSED_LENGTH = 14,  /* too few or too many bytes after a P6 header */
    PIET_REFUSED_EDITION = 15, /* an edition other than 1 and 2 */
    PIET_REFUSED_LIMIT = 16    /* visits are to be counted up to a limit of 2^64 - 1 */
};

/*
 * The edition of the rules by which a table is built or run. With a the top of the stack and b the value below it, the
 * two differ in these:
 *
 *                      PIET_EDITION_RUST                         PIET_EDITION_PAGE
 *   when a slide over  at its eighth turn                        where it comes to a codel with a dp that it had there
 *   white is lost                                                before, by a move or a turn
 *   what a lost slide  its attempt is not open, exit 0: the      its exit is PIET_EXIT_LOST: where no attempt before
 *   does               next of the eight is tried                it is open, the run is completed without a step
 *   Div, Mod by 0      both values are gone                      the stack stays as it was
 *   Mod                b modulo the absolute value of a, never   b - a x floor(b / a): 0, or of a's sign
 *                      negative; by -2^63 both are gone
 *   Roll, its depth    both values are gone                      the stack stays as it was
 *   negative or above
 *   the values left
 *   CharIn             takes a line, and pushes its first        takes one character, and leaves the rest of the line
 *                      character                                 to the next read
 *
 * All else is the same in both.
 */
enum piet_edition {
    PIET_EDITION_RUST = 1, /* the rules of the Rust program pwang00/pietcc */
    PIET_EDITION_PAGE = 2  /* those of the public Piet page */
};

/* Colour numbers: a hue 0 to 5, plus 6 for each step of lightness above dark. */
enum piet_colour {
    PIET_DARK_RED = 0,
    PIET_DARK_YELLOW = 1,
    PIET_DARK_GREEN = 2,
    PIET_DARK_CYAN = 3,
    PIET_DARK_BLUE = 4,
    PIET_DARK_MAGENTA = 5,
    PIET_RED = 6,
    PIET_YELLOW = 7,
    PIET_GREEN = 8,
    PIET_CYAN = 9,
    PIET_BLUE = 10,
    PIET_MAGENTA = 11,
    PIET_LIGHT_RED = 12,
    PIET_LIGHT_YELLOW = 13,
    PIET_LIGHT_GREEN = 14,
    PIET_LIGHT_CYAN = 15,
    PIET_LIGHT_BLUE = 16,
    PIET_LIGHT_MAGENTA = 17,
    PIET_BLACK = 18,
    PIET_WHITE = 19
};

/* The pointers; a pointer state is 2 x dp + cc. */
enum piet_dp {
    PIET_DP_RIGHT = 0,
    PIET_DP_DOWN = 1,
    PIET_DP_LEFT = 2,
    PIET_DP_UP = 3
};

enum piet_cc {
    PIET_CC_LEFT = 0,
    PIET_CC_RIGHT = 1
};

/* What becomes of a pixel that is none of the twenty colours. */
enum piet_unknown {
    PIET_UNKNOWN_DEFAULT = 0, /* acts as PIET_UNKNOWN_WHITE */
    PIET_UNKNOWN_REFUSED = 1,
    PIET_UNKNOWN_WHITE = 2,
    PIET_UNKNOWN_BLACK = 3
};

/* An exit's instruction. */
enum piet_instruction {
    PIET_NONE = 0,
    PIET_PUSH = 1,
    PIET_POP = 2,
    PIET_ADD = 3,
    PIET_SUB = 4,
    PIET_MUL = 5,
    PIET_DIV = 6,
    PIET_MOD = 7,
    PIET_NOT = 8,
    PIET_GT = 9,
    PIET_PTR = 10,
    PIET_SWI = 11,
    PIET_DUP = 12,
    PIET_ROLL = 13,
    PIET_CHAR_IN = 14,
    PIET_CHAR_OUT = 15,
    PIET_INT_IN = 16,
    PIET_INT_OUT = 17
};

/* Why a run stopped. 4, 5 and 6: the step is not taken, and everything stands as before it. */
enum piet_status {
    PIET_COMPLETED = 1,   /* no attempt is open, or, in PIET_EDITION_PAGE, none before a lost slide */
    PIET_MAX_STEPS = 2,   /* as many steps as the limit */
    PIET_NEEDS_INPUT = 3, /* abstract mode, after an input instruction */
    PIET_STACK_FULL = 4,  /* the depth after the step would pass the stack's room */
    PIET_OUTPUT_FULL = 5, /* the step would emit, and no output cell is left */
    PIET_BAD_INPUT = 6    /* the line that the step would read is not UTF-8 */
};

/*
 * The cells of a run's answer. The four SKIPPED count the steps at which IntIn skipped its line, by the reason. What
 * CharIn left of a line (PIET_EDITION_PAGE) is a line here. White space, Unicode's (U+3000 too), is taken off both ends
 * of the line; what is left is a number where it is a sign or none and one or more digits 0 to 9. Only steps that are
 * taken count, so that the four together are at most the steps: a line that is not UTF-8 is PIET_BAD_INPUT and counts
 * nothing. In abstract mode nothing is read, and nothing counts.
 */
enum piet_run_cell {
    PIET_RUN_STATUS = 0,                /* enum piet_status */
    PIET_RUN_STEPS = 1,                 /* the steps taken */
    PIET_RUN_REGION = 2,                /* the region that the run stands in */
    PIET_RUN_DP = 3,                    /* enum piet_dp */
    PIET_RUN_CC = 4,                    /* enum piet_cc */
    PIET_RUN_DEPTH = 5,                 /* the depth of the stack */
    PIET_RUN_OUTPUTS = 6,               /* the count of outputs */
    PIET_RUN_USED = 7,                  /* the bytes of input used */
    PIET_RUN_SKIPPED_ENDED = 8,         /* no byte of input was left */
    PIET_RUN_SKIPPED_BLANK = 9,         /* a line was there, and it was white space alone */
    PIET_RUN_SKIPPED_NOT_NUMBER = 10,   /* what was left is not a number */
    PIET_RUN_SKIPPED_OUT_OF_RANGE = 11, /* what was left is a number below -2^63 or above 2^63 - 1 */
    PIET_RUN_PICTURE_REGIONS = 12,      /* of piet_run_picture alone: the count of regions */
    PIET_RUN_UNVISITED = 12             /* of piet_visits alone: the count of nodes never entered */
};

/* The kind of an output. */
enum piet_kind {
    PIET_CHAR = 1, /* a Unicode scalar value */
    PIET_INT = 2
};

/* Sizes of answers, rows and exits, of a label's room, and of the longest P6 header that is written. */
enum piet_size {
    PIET_CLASSIFY_ANSWER = 2,
    PIET_BUILD_ANSWER = 2,
    PIET_LABEL_ANSWER = 1,
    PIET_FOREVER_ANSWER = 1,
    PIET_RUN_ANSWER = 12,
    PIET_VISITS_ANSWER = 13,
    PIET_RUN_PICTURE_ANSWER = 13,
    PIET_READ_P6_ANSWER = 2,
    PIET_WRITE_P6_ANSWER = 1,
    PIET_ROW = 5,         /* cells of a region's row: colour, size, first pixel row, first pixel column, node mark */
    PIET_EXITS = 8,       /* exits of a region, by pointer state 2 x dp + cc */
    PIET_LABEL_ROOM = 22,
    PIET_P6_HEADER = 17
};

/*
 * An exit cell is 0 where the attempt is not open, and in PIET_EDITION_PAGE PIET_EXIT_LOST where it is a slide over
 * white that is lost. Every other is 1 + target region + 65,536 x new pointer state + 524,288 x instruction, at most
 * 9,437,184; the other three names are for these.
 */
#define PIET_EXIT_LOST 9437185u
#define PIET_EXIT_TARGET(exit) (((exit) - 1u) % 65536u)
#define PIET_EXIT_STATE(exit) (((exit) - 1u) / 65536u % 8u)
#define PIET_EXIT_INSTRUCTION(exit) (((exit) - 1u) / 524288u)

/* The bytes that always suffice for writing a picture of these sides as P6. */
#define PIET_P6_ROOM(height, width) (PIET_P6_HEADER + 3 * (size_t)(height) * (size_t)(width))

/*
 * The colour numbers of a picture's pixels, row by row.
 *
 *   pixels    three bytes a pixel (red, green, blue): 3 x height x width bytes
 *   setting   enum piet_unknown
 *   colours   room for height x width bytes; what is longer stays as it was past them
 *   answer    2 cells: with PIET_REFUSED_PIXEL, row and column of the first such pixel; else 0, 0
 *
 * Returns the first refusal that holds in the order SIZE, SETTING, BYTES, ROOM, PIXEL, or PIET_DONE.
 */
uint32_t piet_classify(const uint8_t *pixels, size_t pixels_length,
                       size_t height, size_t width, uint8_t setting,
                       uint8_t *colours, size_t colours_length,
                       uint64_t *answer, size_t answer_length);

/*
 * The table of a picture. With G = ceil(height / codel) x ceil(width / codel) codels and n regions:
 *
 *   colours   height x width colour numbers, one a pixel; a codel has the colour of its top left pixel
 *   edition   enum piet_edition
 *   map       room for G: the region of each codel, row by row; regions are numbered from 0 by their first codel
 *   rows      room for 5 x G: five cells a region: colour, size in codels, row and column of its first pixel, 1 for
 *             a node (a region that is found from region 0 and is not white) else 0
 *   exits     room for 8 x G: eight cells a region, by pointer state 2 x dp + cc (dp right, down, left, up 0 to 3;
 *             cc left, right 0, 1): 0 where the region is no node or the attempt is not open; PIET_EXIT_LOST where it
 *             is a lost slide, in PIET_EDITION_PAGE alone; else as PIET_EXIT_TARGET, PIET_EXIT_STATE and
 *             PIET_EXIT_INSTRUCTION read it
 *   work      room for G, left 0
 *   answer    2 cells: n and 0; with PIET_REFUSED_COLOUR, 0 and the index of the first colour above 19
 *
 * Row and exit cells past the n regions, up to the room, become 0; cells past the room stay as they were.
 *
 * Returns the first refusal that holds in the order EDITION, SIZE, CODEL, GRID, BYTES, COLOUR, WHITE, ROOM, or
 * PIET_DONE.
 */
uint32_t piet_build(const uint8_t *colours, size_t colours_length,
                    size_t height, size_t width, size_t codel, uint32_t edition,
                    uint32_t *map, size_t map_length,
                    uint32_t *rows, size_t rows_length,
                    uint32_t *exits, size_t exits_length,
                    uint32_t *work, size_t work_length,
                    uint64_t *answer, size_t answer_length);

/*
 * The label of a region by its colour and first pixel: `Entry` for (0,0), else as RegRed_0_1.
 *
 *   out      room for 22 bytes: the label, then zeros up to 22 bytes; what is longer stays as it was past them.
 *            The longest label has 22 bytes, so a label need not end with a zero
 *   answer   1 cell: the label's length
 *
 * Returns PIET_REFUSED_LABEL or PIET_DONE.
 */
uint32_t piet_label(uint8_t colour, size_t row, size_t column,
                    uint8_t *out, size_t out_length,
                    uint64_t *answer, size_t answer_length);

/*
 * Whether every node of a table has an exit that is not 0. This is of PIET_EDITION_RUST.
 *
 *   n, rows, exits   a table, as for piet_run in PIET_EDITION_RUST, so that one with PIET_EXIT_LOST is refused
 *   answer           1 cell: 1 for yes, 0 for no
 *
 * Returns PIET_REFUSED_TABLE or PIET_DONE.
 */
uint32_t piet_determine_runs_forever(size_t n,
                                     const uint32_t *rows, size_t rows_length,
                                     const uint32_t *exits, size_t exits_length,
                                     uint64_t *answer, size_t answer_length);

/*
 * A run over a table, from region 0 with dp right, cc left and an empty stack.
 *
 *   n, rows, exits   the table: the count of regions, 5 x n row cells, 8 x n exit cells; longer slices will do
 *   edition          enum piet_edition. A table that was built in the other edition is run by its exits as they stand;
 *                    with PIET_EXIT_LOST among them it is refused in PIET_EDITION_RUST
 *   limit            the most steps
 *   abstract_mode    true: an input instruction reads nothing, and the run stops after it
 *   input            the bytes that input instructions read, by lines; CharIn in PIET_EDITION_PAGE by characters
 *   stack            the stack, of any length, 0 included; on return cell 0 is the bottom
 *   kinds, values    the outputs in order, enum piet_kind and the value; the shorter of the two is the room, which
 *                    may be 0
 *   answer           12 cells, in the order of enum piet_run_cell: where and why the run stopped, how much it left and
 *                    read, and how many lines IntIn skipped for which reason
 *
 * All cells of stack, kinds and values past the depth or the count of outputs, each slice to its end, become 0.
 *
 * Returns the first refusal that holds in the order EDITION, TABLE, or PIET_DONE. PIET_REFUSED_TABLE is where n is 0 or
 * above 65,536, rows or exits are short, a node mark is above 1, or an exit is above 9,437,184 or has a target that is
 * not below n; in PIET_EDITION_PAGE the exit PIET_EXIT_LOST passes too.
 */
uint32_t piet_run(size_t n,
                  const uint32_t *rows, size_t rows_length,
                  const uint32_t *exits, size_t exits_length,
                  uint32_t edition, uint64_t limit, bool abstract_mode,
                  const uint8_t *input, size_t input_length,
                  int64_t *stack, size_t stack_length,
                  uint8_t *kinds, size_t kinds_length,
                  int64_t *values, size_t values_length,
                  uint64_t *answer, size_t answer_length);

/*
 * A run over a table, as by piet_run, with each region's visits counted: the start counts once for region 0, and each
 * step once for the region that it reaches. A step that is not taken counts nothing, and neither does a lost slide. The
 * counts of the n regions together are the steps and one more.
 *
 *   n to values   these arguments are as for piet_run, and what is lent is written as by it; but limit is at most
 *                 2^64 - 2, so that each count fits
 *   visits        room for n: how often each region was entered, whatever the cells held before
 *   unvisited     room for n: the nodes, rows with mark 1, that were never entered, by their region numbers in rising
 *                 order; then zeros up to n cells. Region 0 is never among them, since the start enters it
 *   answer        13 cells: the twelve of piet_run, then the count of nodes never entered (PIET_RUN_UNVISITED)
 *
 * Cells of visits and unvisited past n stay as they were. A region whose row has no mark is counted and never listed. A
 * node may be listed that no run comes to: nodes are found through white regions too.
 *
 * Returns the first refusal that holds in the order EDITION, TABLE, LIMIT, ROOM, or PIET_DONE.
 */
uint32_t piet_visits(size_t n,
                     const uint32_t *rows, size_t rows_length,
                     const uint32_t *exits, size_t exits_length,
                     uint32_t edition, uint64_t limit, bool abstract_mode,
                     const uint8_t *input, size_t input_length,
                     int64_t *stack, size_t stack_length,
                     uint8_t *kinds, size_t kinds_length,
                     int64_t *values, size_t values_length,
                     uint64_t *visits, size_t visits_length,
                     uint32_t *unvisited, size_t unvisited_length,
                     uint64_t *answer, size_t answer_length);

/*
 * A run over a table, as by piet_run, with the exit of each step kept, in their order. PIET_EXIT_TARGET reads the
 * region that the step entered, PIET_EXIT_STATE the pointers before its instruction, and PIET_EXIT_INSTRUCTION that
 * instruction. The region that it left is the one that the step before it entered, or for the first step region 0.
 * Neither a step that is not taken nor a lost slide is kept.
 *
 *   n to values   these arguments are as for piet_run, and what is lent is written as by it
 *   taken         of any length, 0 included: cell i gets the exit of step i + 1. A slice that is shorter than the run
 *                 has the exits of its first steps; cells past the last step stay as they were
 *   answer        the 12 cells of piet_run; PIET_RUN_STEPS tells how many exits were taken, kept or not
 *
 * Returns the first refusal that holds in the order EDITION, TABLE, or PIET_DONE.
 */
uint32_t piet_history(size_t n,
                      const uint32_t *rows, size_t rows_length,
                      const uint32_t *exits, size_t exits_length,
                      uint32_t edition, uint64_t limit, bool abstract_mode,
                      const uint8_t *input, size_t input_length,
                      int64_t *stack, size_t stack_length,
                      uint8_t *kinds, size_t kinds_length,
                      int64_t *values, size_t values_length,
                      uint32_t *taken, size_t taken_length,
                      uint64_t *answer, size_t answer_length);

/*
 * The whole run of a picture: its colours as by piet_classify, its table as by piet_build, and the run over that table
 * as by piet_run. With G = ceil(height / codel) x ceil(width / codel) codels:
 *
 *   pixels, setting              as for piet_classify
 *   codel                        the codel width, as for piet_build
 *   edition                      enum piet_edition, for building and for running
 *   limit, abstract_mode, input  as for piet_run
 *   colours                      room for height x width bytes, written as by piet_classify
 *   map, rows, exits, work       room for G, 5 x G, 8 x G and G, written as by piet_build
 *   stack, kinds, values         of any length, written as by piet_run
 *   answer                       13 cells: the twelve of piet_run, then the count of regions; with PIET_REFUSED_PIXEL,
 *                                row and column of the first such pixel, then eleven zeros
 *
 * Returns the first refusal that holds in the order EDITION, SIZE, SETTING, BYTES, ROOM (of colours), PIXEL, and then
 * CODEL, GRID, WHITE, ROOM (of map, rows, exits or work); or PIET_DONE.
 */
uint32_t piet_run_picture(const uint8_t *pixels, size_t pixels_length,
                          size_t height, size_t width, uint8_t setting, size_t codel, uint32_t edition,
                          uint64_t limit, bool abstract_mode,
                          const uint8_t *input, size_t input_length,
                          uint8_t *colours, size_t colours_length,
                          uint32_t *map, size_t map_length,
                          uint32_t *rows, size_t rows_length,
                          uint32_t *exits, size_t exits_length,
                          uint32_t *work, size_t work_length,
                          int64_t *stack, size_t stack_length,
                          uint8_t *kinds, size_t kinds_length,
                          int64_t *values, size_t values_length,
                          uint64_t *answer, size_t answer_length);

/*
 * The pixels of a Netpbm P6 file, which paint programs export as PPM in bytes ("raw"). The file is `P6`, the width, the
 * height and the maximum 255, each number after a gap; then one white space byte, and the pixels to the file's end.
 * White space is blank, tab, return and newline; a gap is one or more white space bytes or comments, and a comment goes
 * from # through the next newline. A number has any count of digits, and leading zeros say nothing.
 *
 *   file     all bytes of the file
 *   pixels   room for 3 x height x width bytes: the pixels, as piet_classify and piet_run_picture take them; what is
 *            longer stays as it was past them. As many bytes as the file has always suffice
 *   answer   2 cells: height and width, though the file has the width first
 *
 * Returns the first refusal that holds in the order HEADER, SIZE, LENGTH, ROOM, or PIET_DONE.
 */
uint32_t piet_read_p6(const uint8_t *file, size_t file_length,
                      uint8_t *pixels, size_t pixels_length,
                      uint64_t *answer, size_t answer_length);

/*
 * A picture as a Netpbm P6 file: `P6`, width, height and 255, a newline after each, and the pixels. piet_read_p6 reads
 * it back the same.
 *
 *   pixels   three bytes a pixel, of any colours: 3 x height x width bytes
 *   file     room for the file, for which PIET_P6_ROOM(height, width) bytes always suffice; what is longer stays as it
 *            was past it
 *   answer   1 cell: the file's length: 9, the digits of both sides, and 3 x height x width
 *
 * Returns the first refusal that holds in the order SIZE, BYTES, ROOM, or PIET_DONE.
 */
uint32_t piet_write_p6(const uint8_t *pixels, size_t pixels_length,
                       size_t height, size_t width,
                       uint8_t *file, size_t file_length,
                       uint64_t *answer, size_t answer_length);

#ifdef __cplusplus
}
#endif

#endif
