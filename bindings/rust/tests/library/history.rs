//! History: the exits that a run takes, in their order.
use crate::support::{built_in, drawn, kept, rows_marked, ways, Keeping, CELLS, PATTERN, START, TERMS};
use piet::{
    history, Cc, Cells, Dp, Edition, Exit, Instruction, Pointers, Refusal, Status, Table, Terms, EXITS,
    MOST_CODELS, ROW,
};
use Edition::{Page, Rust};
use Instruction::{IntIn, IntOut, None as Nothing, Pop, Ptr, Push, Swi};

fn exit(target: u16, dp: Dp, cc: Cc, instruction: Instruction) -> Exit {
    Exit { target, pointers: Pointers { dp, cc }, instruction }
}

/// The exits of a picture's run.
fn drawn_and_kept(rows: &str, edition: Edition, limit: u64) -> Vec<Exit> {
    let (colours, shape) = drawn(rows);
    let (regions, slices) = built_in(edition, &colours, shape);
    kept(slices.table(regions), edition, Terms { limit, ..TERMS }, CELLS).1
}

/// The refusal of a call with so many cells for exits, which has to leave every slice as it was.
fn refused(table: Table, cells: usize) -> Refusal {
    let refusal = |edition| {
        let mut room = Keeping::of(cells, CELLS);
        let before = room.clone();
        let refusal = history(table, edition, TERMS, room.lent()).unwrap_err();
        assert_eq!(room, before);
        refusal
    };
    assert_eq!(refusal(Page), refusal(Rust));
    refusal(Rust)
}

#[test]
fn pictures() {
    let (there, back) = (exit(1, Dp::Right, Cc::Left, Push), exit(0, Dp::Left, Cc::Left, Pop));
    for edition in Edition::ALL {
        assert_eq!(drawn_and_kept("rR", edition, 4), [there, back, there, back]);
        assert_eq!(drawn_and_kept("rR", edition, 0), []);
    }
    // right is black; down, a slide turns twice at the edge and comes back to the first red
    let slide = exit(0, Dp::Up, Cc::Right, Nothing);
    assert_eq!(drawn_and_kept("R#/.R", Rust, 5), [slide; 5]);
    // right of light red is the edge, and the third attempt is downward; from there down is the edge, left is black, and
    // the fifth attempt is upward
    let round = [
        exit(1, Dp::Right, Cc::Left, Pop),
        exit(3, Dp::Down, Cc::Right, Push),
        exit(1, Dp::Up, Cc::Right, Pop),
    ];
    assert_eq!(drawn_and_kept("Rr/#R", Rust, 3), round);
}

/// An exit has the pointers before its instruction; those after it are the run's.
#[test]
fn instructions_that_turn() {
    let rows = rows_marked(&[1; 3]);
    let to_second = exit(1, Dp::Right, Cc::Left, IntIn);
    for (instruction, turned) in [(Ptr, (Dp::Down, Cc::Left)), (Swi, (Dp::Right, Cc::Right))] {
        let exits = ways(&[Some((IntIn, 1)), Some((instruction, 2)), None]);
        let table = Table { regions: 3, rows: &rows, exits: &exits };
        let (ended, taken) = kept(table, Rust, Terms { input: b"1", ..TERMS }, CELLS);
        assert_eq!(taken, [to_second, Exit { target: 2, pointers: START, instruction }]);
        assert_eq!((ended.pointers.dp, ended.pointers.cc), turned);
    }
}

/// A run that comes to a lost slide is over, and nothing is kept of it.
#[test]
fn lost_slides() {
    let slide = exit(0, Dp::Up, Cc::Right, Nothing);
    assert_eq!(drawn_and_kept("R../.#.", Page, 9), []);
    assert_eq!(drawn_and_kept("R../.#.", Rust, 9), [slide; 9]);
}

/// A table of another edition is run by its exits as they stand.
#[test]
fn tables_of_the_other_edition() {
    let (colours, shape) = drawn("R../.#.");
    let [(regions, rust), (_, page)] = Edition::ALL.map(|edition| built_in(edition, &colours, shape));
    let nine_steps = Terms { limit: 9, ..TERMS };
    let [by_rust, by_page] =
        Edition::ALL.map(|edition| kept(rust.table(regions), edition, nine_steps, CELLS));
    assert_eq!(by_rust, by_page);
    let mut room = Keeping::of(9, CELLS);
    assert_eq!(history(page.table(regions), Rust, nine_steps, room.lent()), Err(Refusal::Table));
}

/// From each region of the largest table to the next, and back to the first.
#[test]
fn the_largest_table() {
    let next = |region: usize| Some((Nothing, ((region + 1) % MOST_CODELS) as u16));
    let (rows, exits) =
        (rows_marked(&[1; MOST_CODELS]), ways(&(0..MOST_CODELS).map(next).collect::<Vec<_>>()));
    let table = Table { regions: MOST_CODELS, rows: &rows, exits: &exits };
    let (_, taken) = kept(table, Rust, Terms { limit: 65_536, ..TERMS }, CELLS);
    let targets: Vec<u16> = taken.iter().map(|exit| exit.target).collect();
    assert_eq!(targets, (1..=u16::MAX).chain([0]).collect::<Vec<_>>());
}

/// Three nodes, from the first to the second by an instruction and on by another, and the end and the count of exits.
fn two_steps(instructions: [Instruction; 2], terms: Terms, cells: Cells) -> (Status, usize) {
    let [first, second] = instructions;
    let (rows, exits) = (rows_marked(&[1; 3]), ways(&[Some((first, 1)), Some((second, 2)), None]));
    let table = Table { regions: 3, rows: &rows, exits: &exits };
    let exits_of = |edition| {
        let (ended, taken) = kept(table, edition, terms, cells);
        (ended.status, taken.len())
    };
    // these instructions are the same in both editions
    assert_eq!(exits_of(Page), exits_of(Rust));
    exits_of(Rust)
}

#[test]
fn steps_that_are_not_taken() {
    let (no_stack, no_outputs) = (Cells { stack: 0, ..CELLS }, Cells { outputs: 0, ..CELLS });
    assert_eq!(two_steps([Nothing, Push], TERMS, no_stack), (Status::StackFull, 1));
    assert_eq!(two_steps([Push, IntOut], TERMS, no_outputs), (Status::OutputFull, 1));
    assert_eq!(two_steps([IntIn, Pop], Terms { input: b"\xFF", ..TERMS }, CELLS), (Status::BadInput, 0));
    assert_eq!(two_steps([Push, IntOut], TERMS, CELLS), (Status::Completed, 2));
}

/// A step that changes nothing is taken, and so is the one after which input is awaited.
#[test]
fn steps_that_are_taken() {
    assert_eq!(two_steps([Pop, IntIn], TERMS, CELLS), (Status::Completed, 2));
    let abstract_mode = Terms { abstract_mode: true, ..TERMS };
    assert_eq!(two_steps([IntIn, Pop], abstract_mode, CELLS), (Status::NeedsInput, 1));
    assert_eq!(two_steps([Pop, Pop], Terms { limit: 1, ..TERMS }, CELLS), (Status::MaxSteps, 1));
}

/// What a longer run left stays past the exits of a shorter one.
#[test]
fn cells_that_are_lent_again() {
    let (colours, shape) = drawn("rR");
    let (regions, to_and_fro) = built_in(Rust, &colours, shape);
    let (rows, exits) = (rows_marked(&[1]), ways(&[Some((Nothing, 0))]));
    let round = Table { regions: 1, rows: &rows, exits: &exits };
    let mut room = Keeping::of(4, CELLS);
    let mut keep = |table, limit| {
        history(table, Rust, Terms { limit, ..TERMS }, room.lent()).unwrap();
        room.taken.clone()
    };
    let (there, back, past) = (524_290, 1_310_721, PATTERN.into());
    assert_eq!(keep(to_and_fro.table(regions), 3), [there, back, there, past]);
    assert_eq!(keep(round, 0), [there, back, there, past]);
    assert_eq!(keep(round, 1), [1, back, there, past]);
    assert_eq!(keep(round, 9), [1; 4]);
}

#[test]
fn refused_tables() {
    let (rows, exits) = (rows_marked(&[1, 1]), ways(&[Some((Nothing, 1)), None]));
    let table = Table { regions: 2, rows: &rows, exits: &exits };
    for cells in [0, 1, 9] {
        for regions in [0, 3, MOST_CODELS + 1, usize::MAX] {
            assert_eq!(refused(Table { regions, ..table }, cells), Refusal::Table);
        }
        assert_eq!(refused(Table { rows: &rows[..2 * ROW - 1], ..table }, cells), Refusal::Table);
        assert_eq!(refused(Table { exits: &exits[..2 * EXITS - 1], ..table }, cells), Refusal::Table);
    }
}

/// No limit is refused; what is asked for is allocated, and not the limit.
#[test]
fn the_largest_limit() {
    let (rows, exits) = (rows_marked(&[1, 1]), ways(&[Some((Nothing, 1)), None]));
    let table = Table { regions: 2, rows: &rows, exits: &exits };
    let (ended, taken) = kept(table, Rust, Terms { limit: u64::MAX, ..TERMS }, CELLS);
    assert_eq!((ended.status, taken), (Status::Completed, vec![exit(1, Dp::Right, Cc::Left, Nothing)]));
}
