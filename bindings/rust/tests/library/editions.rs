//! The two editions: tables and runs where they differ, and the same answers next to these.
use crate::support::{built_in, drawn, pixels, row_of, Slices, CELLS, TERMS};
use piet::{
    determine_runs_forever, run, run_picture, run_pixels, Attempt, Cc, Cells, Colour, Dp, Edition, Ended,
    Exit, Instruction, Picture, Pointers, Refusal, Skipped, Status, Table, Terms, EXITS, MOST_CODELS,
};
use Edition::{Page, Rust};
use Instruction::{CharIn, Div, IntIn, Mod, Roll};

/// The cell of a lost slide.
const LOST: u32 = 9_437_185;

const NINE_STEPS: Terms = Terms { limit: 9, ..TERMS };

/// Two rows, in which the slide to the right is lost and the slide down comes back.
const BOTH_SLIDES: &str = "R../.#.";

/// A white spiral with nine right turns to a red codel in the middle.
const SPIRAL: &str =
    "R......./#######./......#./.####.#./.#..#.#./.#.R#.#./.#.##.#./.#....#./.######./........";

fn table_of(rows: &str, edition: Edition) -> (usize, Slices) {
    let (colours, shape) = drawn(rows);
    built_in(edition, &colours, shape)
}

/// The exits of a region, by pointer state.
fn exits_of(rows: &str, edition: Edition, region: usize) -> Vec<u32> {
    let (_, slices) = table_of(rows, edition);
    slices.table[2][EXITS * region..][..EXITS].to_vec()
}

/// Status, steps, region, dp, cc, depth, outputs and used, of a run that skipped no line.
fn numbers(ended: Ended) -> [u64; 8] {
    assert_eq!(ended.skipped, Skipped::NONE);
    let Pointers { dp, cc } = ended.pointers;
    let [region, depth, outputs, used] =
        [ended.region, ended.depth, ended.outputs, ended.used].map(|number| number as u64);
    let [status, dp, cc] = [ended.status.number(), dp.number(), cc.number()].map(u64::from);
    [status, ended.steps, region, dp, cc, depth, outputs, used]
}

fn run_of(table: Table, edition: Edition, terms: Terms) -> Result<[u64; 8], Refusal> {
    run(table, edition, terms, Slices::of(row_of(0), CELLS).lent().run).map(numbers)
}

/// A picture's table in one edition, run in another.
fn crossed(rows: &str, built: Edition, limit: u64, ran: Edition) -> Result<[u64; 8], Refusal> {
    let (regions, slices) = table_of(rows, built);
    run_of(slices.table(regions), ran, Terms { limit, ..TERMS })
}

fn run_in(rows: &str, edition: Edition, limit: u64) -> [u64; 8] {
    crossed(rows, edition, limit, edition).unwrap()
}

#[test]
fn tables() {
    assert_eq!(exits_of(BOTH_SLIDES, Rust, 0), [0, 0, 393_217, 458_753, 0, 0, 0, 0]);
    assert_eq!(exits_of(BOTH_SLIDES, Page, 0), [LOST, LOST, 393_217, 458_753, 0, 0, 0, 0]);
    assert_eq!(exits_of("R./#.", Rust, 0), [0; 8]);
    assert_eq!(exits_of("R./#.", Page, 0), [LOST, LOST, 0, 0, 0, 0, 0, 0]);
    // map, rows and work are the same, and what is no node has no exits
    let [(regions, of_rust), (same, of_page)] = [Rust, Page].map(|edition| table_of(BOTH_SLIDES, edition));
    let [[map, rows, exits, work], [page_map, page_rows, page_exits, page_work]] =
        [of_rust.table, of_page.table];
    assert_eq!((regions, map, rows, work), (same, page_map, page_rows, page_work));
    assert_eq!((regions, &exits[8..], &page_exits[8..]), (4, &[0; 40][..], &[0; 40][..]));
}

/// Both slides are lost, and still the region behind the white is a node: white regions are searched too.
#[test]
fn nodes_behind_white() {
    for edition in Edition::ALL {
        let (_, slices) = table_of("R.#/#.R", edition);
        assert_eq!(slices.table[1][20..25], [6, 1, 1, 2, 1]);
    }
    assert_eq!(exits_of("R.#/#.R", Rust, 4), [0; 8]);
    assert_eq!(exits_of("R.#/#.R", Page, 4), [0, 0, 0, 0, LOST, LOST, 0, 0]);
}

/// A slide of edition 2 is lost where it comes back, and not at its eighth turn.
#[test]
fn long_slides() {
    // nine turns, back to the block that was left
    assert_eq!(exits_of("R.##/#.../..R#", Rust, 4), [0, 0, 0, 0, 5, 65_541, 0, 0]);
    assert_eq!(exits_of("R.##/#.../..R#", Page, 4), [0, 0, 0, 0, 5, 65_541, 65_541, 5]);
    // eight turns, in a run
    assert_eq!(exits_of("R.##/#..R/...#/##.#", Rust, 0)[0], 0);
    assert_eq!(exits_of("R.##/#..R/...#/##.#", Page, 0)[0], 5);
    assert_eq!(run_in("R.##/#..R/...#/##.#", Rust, 1), [1, 0, 0, 0, 0, 0, 0, 0]);
    assert_eq!(run_in("R.##/#..R/...#/##.#", Page, 1), [2, 1, 4, 0, 0, 0, 0, 0]);
    // not the first station comes again, but a later one
    assert_eq!(exits_of("R../##.", Page, 0), [LOST, LOST, 0, 0, 0, 0, 0, 0]);
}

#[test]
fn the_spiral() {
    let node = |edition| table_of(SPIRAL, edition).1.table[1][5 * 3 + 4];
    assert_eq!((exits_of(SPIRAL, Rust, 0), node(Rust)), (vec![0; 8], 0));
    assert_eq!(run_in(SPIRAL, Rust, 1), [1, 0, 0, 0, 0, 0, 0, 0]);
    assert_eq!((exits_of(SPIRAL, Page, 0), node(Page)), (vec![196_612, 131_076, 0, 0, 0, 0, 0, 0], 1));
    assert_eq!(run_in(SPIRAL, Page, 1), [2, 1, 3, 1, 1, 0, 0, 0]);
    // with black in the middle there is no way out
    let (entry, middle) = SPIRAL.split_at(1);
    let closed = format!("{entry}{}", middle.replace('R', "#"));
    assert_eq!(exits_of(&closed, Rust, 0), [0; 8]);
    assert_eq!(exits_of(&closed, Page, 0), [LOST, LOST, 0, 0, 0, 0, 0, 0]);
}

#[test]
fn black_at_the_start() {
    assert_eq!(exits_of("#.", Rust, 0), [0; 8]);
    assert_eq!(exits_of("#.", Page, 0), [LOST, LOST, 0, 0, 0, 0, 0, 0]);
}

#[test]
fn cells_in_words() {
    let attempt = |edition, dp| {
        let (regions, slices) = table_of(BOTH_SLIDES, edition);
        let pointers = Pointers { dp, cc: Cc::Left };
        let attempt = slices.table(regions).attempt(0, pointers);
        let open = slices.table(regions).exit(0, pointers);
        assert_eq!(open.map(Attempt::Open), attempt.filter(|attempt| matches!(attempt, Attempt::Open(_))));
        attempt
    };
    assert_eq!(attempt(Rust, Dp::Right), Some(Attempt::Shut));
    assert_eq!(attempt(Page, Dp::Right), Some(Attempt::Lost));
    let pointers = Pointers { dp: Dp::Up, cc: Cc::Left };
    let back = Attempt::Open(Exit { target: 0, pointers, instruction: Instruction::None });
    for edition in Edition::ALL {
        assert_eq!(attempt(edition, Dp::Down), Some(back));
        assert_eq!(attempt(edition, Dp::Left), Some(Attempt::Shut));
    }
}

#[test]
fn runs() {
    assert_eq!(run_in(BOTH_SLIDES, Rust, 9), [2, 9, 0, 3, 1, 0, 0, 0]);
    assert_eq!(run_in(BOTH_SLIDES, Page, 9), [1, 0, 0, 0, 0, 0, 0, 0]);
    assert_eq!(run_in("R./#.", Rust, 9), [1, 0, 0, 0, 0, 0, 0, 0]);
    assert_eq!(run_in("R./#.", Page, 9), [1, 0, 0, 0, 0, 0, 0, 0]);
    // the limit is tested first
    assert_eq!(run_in("R./#.", Page, 0), [2, 0, 0, 0, 0, 0, 0, 0]);
    // one step, a slide that turned once; then the slide down is lost
    assert_eq!(run_in("R./#R/..", Page, 9), [1, 1, 3, 1, 1, 0, 0, 0]);
    assert_eq!(run_in("R./#R/..", Page, 1), [2, 1, 3, 1, 1, 0, 0, 0]);
}

#[test]
fn in_one_call() {
    let (colours, shape) = drawn(BOTH_SLIDES);
    let row = pixels(&colours);
    let texts = [
        (Rust, "status 2\nsteps 9\nat Entry 3 1\nstack 0\nout 0\n"),
        (Page, "status 1\nsteps 0\nat Entry 0 0\nstack 0\nout 0\n"),
    ];
    for (edition, text) in texts {
        let mut slices = Slices::of(shape, CELLS);
        let picture = Picture::of(&row, shape);
        let pictured = run_picture(picture, edition, NINE_STEPS, slices.lent()).unwrap();
        assert_eq!((numbers(pictured.ended), pictured.regions), (run_in(BOTH_SLIDES, edition, 9), 4));
        assert_eq!(slices.table, table_of(BOTH_SLIDES, edition).1.table);
        let told = run_pixels(picture, edition, NINE_STEPS, CELLS).unwrap();
        assert_eq!((told.to_string(), told.ended), (text.to_string(), pictured.ended));
    }
}

/// A table is run by its exits as they stand, whichever edition it was built in.
#[test]
fn tables_of_the_other_edition() {
    assert_eq!(crossed(BOTH_SLIDES, Rust, 9, Page), Ok([2, 9, 0, 3, 1, 0, 0, 0]));
    assert_eq!(crossed(BOTH_SLIDES, Page, 9, Rust), Err(Refusal::Table));
    // here no run comes to the lost slides of region 4
    assert_eq!(crossed("R.#/#.R", Rust, 9, Page), Ok([1, 0, 0, 0, 0, 0, 0, 0]));
    assert_eq!(crossed("R.#/#.R", Page, 9, Rust), Err(Refusal::Table));
    // without a lost slide the two tables are the same
    for (built, ran) in [(Rust, Page), (Page, Rust)] {
        assert_eq!(crossed("R.", built, 9, ran), Ok(run_in("R.", ran, 9)));
    }
}

/// Whether a table runs forever is asked in edition 1.
#[test]
fn running_forever() {
    let asked = |edition| {
        let (regions, slices) = table_of(BOTH_SLIDES, edition);
        determine_runs_forever(slices.table(regions))
    };
    assert_eq!((asked(Rust), asked(Page)), (Ok(true), Err(Refusal::Table)));
}

/// A table of one region with these exits.
fn one_region(exits: &[u32]) -> Table<'_> {
    Table { regions: 1, rows: &[6, 1, 0, 0, 1], exits }
}

/// Eight exits, all shut but for the cell in this state.
fn only(cell: u32, state: usize) -> [u32; EXITS] {
    let mut exits = [0; EXITS];
    exits[state] = cell;
    exits
}

/// What a run of this table is refused for, in edition 1 and in edition 2.
fn refusals(table: Table) -> [Option<Refusal>; 2] {
    [Rust, Page].map(|edition| run_of(table, edition, NINE_STEPS).err())
}

#[test]
fn lost_slides_in_a_table() {
    let refused = Some(Refusal::Table);
    for state in 0..EXITS {
        let exits = only(LOST, state);
        let table = one_region(&exits);
        assert_eq!(refusals(table), [refused, None]);
        // in a row that is no node too
        assert_eq!(refusals(Table { rows: &[6, 1, 0, 0, 0], ..table }), [refused, None]);
        assert_eq!(refusals(one_region(&only(LOST + 1, state))), [refused, refused]);
    }
    // past the regions no cell is looked at
    assert_eq!(refusals(one_region(&[0, 0, 0, 0, 0, 0, 0, 0, LOST])), [None, None]);
}

/// The largest exit leads to the last region that a table may have.
#[test]
fn the_largest_exit() {
    let rows = [6, 1, 0, 0, 1].repeat(MOST_CODELS);
    for regions in [1, MOST_CODELS - 1, MOST_CODELS] {
        let mut exits = vec![0; EXITS * regions];
        for (largest, passes) in [(LOST - 1, regions == MOST_CODELS), (LOST, true)] {
            exits[EXITS * regions - 1] = largest;
            let table = Table { regions, rows: &rows, exits: &exits };
            assert_eq!(run_of(table, Page, TERMS).is_ok(), passes, "{largest} of {regions}");
            assert_eq!(run_of(table, Rust, TERMS).is_ok(), passes && largest < LOST);
        }
    }
}

/// Attempts that are shut may come before it; the pointers are those before all attempts. From state 0 these are made
/// in the states 0, 1, 3, 2, 4, 5, 7, 6.
#[test]
fn the_first_that_is_open_or_lost() {
    let order = [0, 1, 3, 2, 4, 5, 7, 6];
    let around = Exit { target: 0, pointers: START, instruction: Instruction::None }.cell();
    for (place, &lost) in order.iter().enumerate() {
        let exits = only(LOST, lost);
        assert_eq!(run_of(one_region(&exits), Page, NINE_STEPS), Ok([1, 0, 0, 0, 0, 0, 0, 0]));
        for (other, &open) in order.iter().enumerate().filter(|&(other, _)| other != place) {
            let mut exits = exits;
            exits[open] = around;
            let expected = if other < place { [2, 9, 0, 0, 0, 0, 0, 0] } else { [1, 0, 0, 0, 0, 0, 0, 0] };
            assert_eq!(run_of(one_region(&exits), Page, NINE_STEPS), Ok(expected));
        }
    }
}

const START: Pointers = Pointers { dp: Dp::Right, cc: Cc::Left };

/// Regions in a row that are left by these instructions; what becomes of the attempts to leave the last is said.
fn chain(instructions: &[Instruction], last: [u32; EXITS]) -> [Vec<u32>; 2] {
    let leave =
        |(&instruction, target)| [Exit { target, pointers: START, instruction }.cell(), 0, 0, 0, 0, 0, 0, 0];
    let exits = instructions.iter().zip(1..).flat_map(leave).chain(last).collect();
    [[6, 1, 0, 0, 1].repeat(instructions.len() + 1), exits]
}

/// The end and the stack of these instructions in an edition.
fn carried_out(
    instructions: &[Instruction],
    edition: Edition,
    terms: Terms,
    cells: Cells,
) -> (Ended, Vec<i64>) {
    let [rows, exits] = chain(instructions, [0; EXITS]);
    let table = Table { regions: instructions.len() + 1, rows: &rows, exits: &exits };
    let mut slices = Slices::of(row_of(0), cells);
    let ended = run(table, edition, terms, slices.lent().run).unwrap();
    slices.stack.truncate(ended.depth);
    (ended, slices.stack)
}

/// NeedsInput is tested before it, as it is before Completed.
#[test]
fn after_an_input_instruction() {
    let [rows, exits] = chain(&[IntIn], [LOST, 0, 0, 0, 0, 0, 0, 0]);
    let table = Table { regions: 2, rows: &rows, exits: &exits };
    let terms = Terms { input: b"5", ..NINE_STEPS };
    assert_eq!(run_of(table, Page, terms), Ok([1, 1, 1, 0, 0, 1, 0, 1]));
    let terms = Terms { abstract_mode: true, ..terms };
    assert_eq!(run_of(table, Page, terms), Ok([3, 1, 1, 0, 0, 0, 0, 0]));
}

/// What an instruction leaves of these values, in edition 1 and in edition 2. The last value is the top. The step is
/// taken, whatever comes of it.
fn leaves(values: &[i64], instruction: Instruction) -> [Vec<i64>; 2] {
    let lines: String = values.iter().map(|value| format!("{value}\n")).collect();
    let instructions = [vec![IntIn; values.len()], vec![instruction]].concat();
    [Rust, Page].map(|edition| {
        let terms = Terms { input: lines.as_bytes(), ..NINE_STEPS };
        let (ended, stack) = carried_out(&instructions, edition, terms, CELLS);
        assert_eq!((ended.status, ended.steps), (Status::Completed, values.len() as u64 + 1));
        stack
    })
}

#[test]
fn by_zero() {
    for instruction in [Div, Mod] {
        assert_eq!(leaves(&[9, 7, 0], instruction), [vec![9], vec![9, 7, 0]]);
        assert_eq!(leaves(&[0, 0], instruction), [vec![], vec![0, 0]]);
        assert_eq!(leaves(&[0], instruction), [[0], [0]]);
    }
}

#[test]
fn rolls() {
    for depth in [-1, 3, i64::MIN, i64::MAX] {
        assert_eq!(leaves(&[5, 6, depth, 1], Roll), [vec![5, 6], vec![5, 6, depth, 1]]);
        assert_eq!(leaves(&[depth, 0], Roll), [vec![], vec![depth, 0]]);
    }
    // a depth of 0 is no bad one, and a good one rolls
    assert_eq!(leaves(&[5, 6, 0, 1], Roll), [[5, 6], [5, 6]]);
    assert_eq!(leaves(&[5, 6, 2, 1], Roll), [[6, 5], [6, 5]]);
    assert_eq!(leaves(&[5, 6, 2, -1], Roll), [[6, 5], [6, 5]]);
    assert_eq!(leaves(&[2], Roll), [[2], [2]]);
}

#[test]
fn the_sign_of_mod() {
    let (least, largest) = (i64::MIN, i64::MAX);
    let cases = [
        (7, -3, 1, -2),
        (-7, -3, 2, -1),
        (-7, 3, 2, 2),
        (7, 3, 1, 1),
        (6, -3, 0, 0),
        (-6, -3, 0, 0),
        (least, -1, 0, 0),
        (least, largest, largest - 1, largest - 1),
        (largest, -largest, 0, 0),
    ];
    for (b, a, rust, page) in cases {
        assert_eq!(leaves(&[b, a], Mod), [[rust], [page]], "{b} Mod {a}");
    }
    // by -2^63 edition 1 has no remainder
    for (b, page) in [(5, 5 + least), (-5, -5), (least, 0), (largest, -1), (0, 0)] {
        assert_eq!(leaves(&[b, least], Mod), [vec![], vec![page]], "{b} Mod -2^63");
    }
}

/// Div is rounded toward zero in both, and wraps.
#[test]
fn quotients() {
    for (b, a, quotient) in [(-7, 2, -3), (7, -2, -3), (-7, -2, 3), (i64::MIN, -1, i64::MIN)] {
        assert_eq!(leaves(&[b, a], Div), [[quotient], [quotient]]);
    }
}

/// What these instructions push and use of an input that is UTF-8, and the lines that they skip.
fn reads(instructions: &[Instruction], edition: Edition, input: &[u8]) -> (Vec<i64>, usize, Skipped) {
    let (ended, stack) = carried_out(instructions, edition, Terms { input, ..NINE_STEPS }, CELLS);
    assert_eq!((ended.status, ended.steps), (Status::Completed, instructions.len() as u64));
    (stack, ended.used, ended.skipped)
}

#[test]
fn characters_of_a_line() {
    let two = &[CharIn; 2];
    assert_eq!(reads(two, Rust, b"ab\ncd\n"), (vec![97, 99], 6, Skipped::NONE));
    assert_eq!(reads(two, Page, b"ab\ncd\n"), (vec![97, 98], 2, Skipped::NONE));
    // the newline is a character, and so is a return before it; at the end of the input nothing is pushed
    assert_eq!(reads(&[CharIn; 5], Rust, b"a\r\nb"), (vec![97, 98], 4, Skipped::NONE));
    assert_eq!(reads(&[CharIn; 5], Page, b"a\r\nb"), (vec![97, 13, 10, 98], 4, Skipped::NONE));
    assert_eq!(reads(two, Rust, "\u{e9}\u{20ac}\n".as_bytes()), (vec![0xe9], 6, Skipped::NONE));
    assert_eq!(reads(two, Page, "\u{e9}\u{20ac}\n".as_bytes()), (vec![0xe9, 0x20ac], 5, Skipped::NONE));
}

/// IntIn takes what is left of the line, and CharIn after it begins the next.
#[test]
fn numbers_after_characters() {
    assert_eq!(reads(&[CharIn, IntIn], Rust, b"a12\n3"), (vec![97, 3], 5, Skipped::NONE));
    assert_eq!(reads(&[CharIn, IntIn], Page, b"a12\n3"), (vec![97, 12], 4, Skipped::NONE));
    for edition in Edition::ALL {
        assert_eq!(reads(&[IntIn, CharIn], edition, b"5 \nab").0, [5, 97]);
    }
    assert_eq!(reads(&[IntIn, CharIn], Page, b"5 \nab").1, 4);
}

/// What is left of a line is skipped for the reasons that a line has.
#[test]
fn skipped_after_characters() {
    let blank = Skipped { blank: 1, ..Skipped::NONE };
    assert_eq!(reads(&[CharIn, IntIn, IntIn], Page, b"5\n6\n"), (vec![53, 6], 4, blank));
    let ended = Skipped { ended: 1, ..Skipped::NONE };
    assert_eq!(reads(&[CharIn, IntIn], Page, b"5"), (vec![53], 1, ended));
    let not_number = Skipped { not_number: 1, ..Skipped::NONE };
    assert_eq!(reads(&[CharIn, IntIn], Page, b"5x\n6"), (vec![53], 3, not_number));
}

/// All that is left of the line is judged before a character of it is taken, and no further line.
#[test]
fn bad_input() {
    let stopped = |instructions: &[Instruction], input| {
        let (ended, stack) = carried_out(instructions, Page, Terms { input, ..NINE_STEPS }, CELLS);
        (ended.status, ended.steps, stack, ended.used)
    };
    assert_eq!(stopped(&[CharIn], b"a\xFF\n"), (Status::BadInput, 0, vec![], 0));
    assert_eq!(stopped(&[CharIn; 3], b"a\n\xFF"), (Status::BadInput, 2, vec![97, 10], 2));
    assert_eq!(stopped(&[CharIn, IntIn], b"a\n\xFF"), (Status::Completed, 2, vec![97], 2));
    assert_eq!(stopped(&[CharIn, IntIn, IntIn], b"a\n\xFF"), (Status::BadInput, 2, vec![97], 2));
}

/// The character for which there is no room stays; a line that is not UTF-8 is told first.
#[test]
fn a_full_stack() {
    let stopped = |stack, input| {
        let (terms, cells) = (Terms { input, ..NINE_STEPS }, Cells { stack, ..CELLS });
        let (ended, _) = carried_out(&[CharIn; 2], Page, terms, cells);
        (ended.status, ended.steps, ended.used)
    };
    assert_eq!(stopped(1, b"ab\n"), (Status::StackFull, 1, 1));
    assert_eq!(stopped(0, b"ab\n"), (Status::StackFull, 0, 0));
    assert_eq!(stopped(0, b"a\xFF\n"), (Status::BadInput, 0, 0));
    assert_eq!(stopped(1, b"a"), (Status::Completed, 2, 1));
}

#[test]
fn abstract_mode() {
    let terms = Terms { abstract_mode: true, input: b"ab\n", ..NINE_STEPS };
    for edition in Edition::ALL {
        let (ended, stack) = carried_out(&[CharIn; 2], edition, terms, CELLS);
        assert_eq!((ended.status, ended.steps, stack, ended.used), (Status::NeedsInput, 1, vec![], 0));
    }
}

/// From red to magenta and from magenta to blue it is CharIn.
#[test]
fn painted_characters() {
    let row = pixels(&[Colour::Red, Colour::Magenta, Colour::Blue]);
    let told = |edition| {
        let terms = Terms { limit: 2, input: b"ab\ncd\n", ..TERMS };
        let told = run_pixels(Picture::of(&row, row_of(3)), edition, terms, CELLS).unwrap();
        (told.stack, told.ended.used)
    };
    assert_eq!((told(Rust), told(Page)), ((vec![97, 99], 6), (vec![97, 98], 2)));
}
