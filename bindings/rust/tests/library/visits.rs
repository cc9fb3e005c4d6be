//! Visits: how often a run enters each region, and which nodes it never enters.
use crate::support::{built_in, drawn, rows_marked, ways, Counting, CELLS, TERMS};
use piet::{
    run, visits, Cells, Edition, Error, Instruction, Refusal, Status, Table, Terms, EXITS, MOST_CODELS, ROW,
};
use Edition::{Page, Rust};
use Instruction::{IntIn, IntOut, None as Nothing, Pop, Push};

/// The limit that is refused, and the largest that is not.
const NO_LIMIT: u64 = u64::MAX;
const LARGEST: u64 = u64::MAX - 1;

/// Counts, list and the list's count, as the call leaves them.
type Counts = (Vec<u64>, Vec<u32>, usize);

fn counted(table: Table, edition: Edition, terms: Terms, cells: Cells) -> (Status, Counts) {
    let (visited, counts, list) = crate::support::counted(table, edition, terms, cells);
    (visited.ended.status, (counts, list, visited.unvisited))
}

/// The visits of a picture's run.
fn drawn_and_counted(rows: &str, edition: Edition, limit: u64) -> Counts {
    let (colours, shape) = drawn(rows);
    let (regions, slices) = built_in(edition, &colours, shape);
    counted(slices.table(regions), edition, Terms { limit, ..TERMS }, CELLS).1
}

/// The refusal of a call with so many cells for counts and list, which has to leave every slice as it was.
fn refused(table: Table, limit: u64, cells: (usize, usize)) -> Refusal {
    let refusal = |edition| {
        let mut room = Counting::of(cells.0, cells.1, CELLS);
        let before = room.clone();
        let refusal = visits(table, edition, Terms { limit, ..TERMS }, room.lent()).unwrap_err();
        assert_eq!(room, before);
        refusal
    };
    assert_eq!(refusal(Page), refusal(Rust));
    refusal(Rust)
}

#[test]
fn pictures() {
    for edition in Edition::ALL {
        assert_eq!(drawn_and_counted("rR", edition, 3), (vec![2, 2], vec![0, 0], 0));
        assert_eq!(drawn_and_counted("rR", edition, 0), (vec![1, 0], vec![1, 0], 1));
    }
    // a slide leads back to the first red, and the second is found through the white alone
    let back = (vec![6, 0, 0, 0], vec![3, 0, 0, 0], 1);
    assert_eq!(drawn_and_counted("R#/.R", Rust, 5), back);
}

/// A run that comes to a lost slide is over, and nothing is counted for it.
#[test]
fn lost_slides() {
    assert_eq!(drawn_and_counted("R../.#.", Page, 9), (vec![1, 0, 0, 0], vec![0; 4], 0));
    assert_eq!(drawn_and_counted("R../.#.", Rust, 9), (vec![10, 0, 0, 0], vec![0; 4], 0));
    // after one step
    assert_eq!(drawn_and_counted("R./#R/..", Page, 9), (vec![1, 0, 0, 1, 0], vec![0; 5], 0));
}

/// A table of another edition is counted by its exits as they stand, as it is run.
#[test]
fn tables_of_the_other_edition() {
    let (colours, shape) = drawn("R../.#.");
    let [(regions, rust), (_, page)] = Edition::ALL.map(|edition| built_in(edition, &colours, shape));
    let nine_steps = Terms { limit: 9, ..TERMS };
    let (_, (counts, ..)) = counted(rust.table(regions), Page, nine_steps, CELLS);
    assert_eq!(counts, [10, 0, 0, 0]);
    let mut room = Counting::of(regions, regions, CELLS);
    assert_eq!(visits(page.table(regions), Rust, nine_steps, room.lent()), Err(Refusal::Table));
}

/// All of the largest table: each region once, then the first twice, and none but the first.
#[test]
fn the_largest_table() {
    let next = |region: usize| Some((Nothing, ((region + 1) % MOST_CODELS) as u16));
    let (rows, exits) =
        (rows_marked(&[1; MOST_CODELS]), ways(&(0..MOST_CODELS).map(next).collect::<Vec<_>>()));
    let table = Table { regions: MOST_CODELS, rows: &rows, exits: &exits };
    let counts = |limit| counted(table, Rust, Terms { limit, ..TERMS }, CELLS).1;
    assert_eq!(counts(65_535), (vec![1; MOST_CODELS], vec![0; MOST_CODELS], 0));
    let first_twice = [&[2][..], &[1; MOST_CODELS - 1]].concat();
    assert_eq!(counts(65_536), (first_twice, vec![0; MOST_CODELS], 0));
    let first_alone = [&[1][..], &[0; MOST_CODELS - 1]].concat();
    assert_eq!(counts(0), (first_alone, (1..65_536).chain([0]).collect(), 65_535));
}

/// A row without a mark is counted, and is never listed; one with a mark that nothing leads to is.
#[test]
fn rows_without_a_mark() {
    let exits = ways(&[Some((Nothing, 2)), None, Some((Nothing, 0)), None, None]);
    let count = |marks: [u32; 5]| {
        let rows = rows_marked(&marks);
        let table = Table { regions: 5, rows: &rows, exits: &exits };
        counted(table, Rust, Terms { limit: 4, ..TERMS }, CELLS).1
    };
    let counts = vec![3, 0, 2, 0, 0];
    assert_eq!(count([1, 0, 0, 1, 0]), (counts.clone(), vec![3, 0, 0, 0, 0], 1));
    assert_eq!(count([0, 1, 1, 0, 1]), (counts.clone(), vec![1, 4, 0, 0, 0], 2));
    assert_eq!(count([0; 5]), (counts, vec![0; 5], 0));
}

/// Two nodes, from the first to the second by an instruction and back by none, and the end and counts of two steps.
fn to_and_fro(instruction: Instruction, terms: Terms, cells: Cells) -> (Status, Vec<u64>) {
    let (rows, exits) = (rows_marked(&[1, 1]), ways(&[Some((instruction, 1)), Some((Nothing, 0))]));
    let table = Table { regions: 2, rows: &rows, exits: &exits };
    let two_steps = |edition| {
        let (status, (counts, ..)) = counted(table, edition, Terms { limit: 2, ..terms }, cells);
        (status, counts)
    };
    // these instructions are the same in both editions
    assert_eq!(two_steps(Page), two_steps(Rust));
    two_steps(Rust)
}

#[test]
fn steps_that_are_not_taken() {
    let (no_stack, no_outputs) = (Cells { stack: 0, ..CELLS }, Cells { outputs: 0, ..CELLS });
    assert_eq!(to_and_fro(Push, TERMS, no_stack), (Status::StackFull, vec![1, 0]));
    assert_eq!(to_and_fro(Push, TERMS, CELLS), (Status::MaxSteps, vec![2, 1]));
    let bad = Terms { input: b"\xFF", ..TERMS };
    assert_eq!(to_and_fro(IntIn, bad, CELLS), (Status::BadInput, vec![1, 0]));
    // a number is read, and there is no room to write it
    let (rows, exits) = (rows_marked(&[1; 3]), ways(&[Some((IntIn, 1)), Some((IntOut, 2)), None]));
    let table = Table { regions: 3, rows: &rows, exits: &exits };
    let terms = Terms { input: b"5", ..TERMS };
    let stopped = (Status::OutputFull, (vec![1, 1, 0], vec![2, 0, 0], 1));
    assert_eq!(counted(table, Rust, terms, no_outputs), stopped);
    assert_eq!(counted(table, Rust, terms, CELLS), (Status::Completed, (vec![1; 3], vec![0; 3], 0)));
}

/// A step that changes nothing is taken, and so is the one after which input is awaited.
#[test]
fn steps_that_are_taken() {
    assert_eq!(to_and_fro(Pop, TERMS, CELLS), (Status::MaxSteps, vec![2, 1]));
    assert_eq!(to_and_fro(IntIn, TERMS, CELLS), (Status::MaxSteps, vec![2, 1]));
    let abstract_mode = Terms { abstract_mode: true, ..TERMS };
    assert_eq!(to_and_fro(IntIn, abstract_mode, CELLS), (Status::NeedsInput, vec![1, 1]));
}

/// No stack and no outputs are lent, and that is no refusal.
#[test]
fn no_room_for_a_run() {
    let nothing = Cells { stack: 0, outputs: 0 };
    assert_eq!(to_and_fro(Nothing, TERMS, nothing), (Status::MaxSteps, vec![2, 1]));
    assert_eq!(to_and_fro(Push, TERMS, nothing), (Status::StackFull, vec![1, 0]));
}

/// Just n cells, and more, whatever they hold.
#[test]
fn cells_of_counts_and_list() {
    let (colours, shape) = drawn("rR");
    let (regions, built) = built_in(Rust, &colours, shape);
    for (more_counts, more_list) in [(0, 0), (0, 3), (3, 0), (1, 2)] {
        let mut room = Counting::of(2 + more_counts, 2 + more_list, CELLS);
        let (kept_counts, kept_list) = (room.visits[2..].to_vec(), room.unvisited[2..].to_vec());
        // what a run left is written over by the next
        for (limit, counts, list) in [(3, [2, 2], [0, 0]), (0, [1, 0], [1, 0]), (4, [3, 2], [0, 0])] {
            visits(built.table(regions), Rust, Terms { limit, ..TERMS }, room.lent()).unwrap();
            assert_eq!(room.visits, [&counts[..], &kept_counts].concat());
            assert_eq!(room.unvisited, [&list[..], &kept_list].concat());
        }
    }
}

#[test]
fn refused_in_order() {
    let (rows, exits) = (rows_marked(&[1, 1]), ways(&[Some((Nothing, 1)), None]));
    let table = Table { regions: 2, rows: &rows, exits: &exits };
    for limit in [TERMS.limit, LARGEST, NO_LIMIT] {
        for cells in [(0, 0), (1, 2), (2, 1), (2, 2)] {
            for regions in [0, 3, MOST_CODELS + 1, usize::MAX] {
                assert_eq!(refused(Table { regions, ..table }, limit, cells), Refusal::Table);
            }
            assert_eq!(refused(Table { rows: &rows[..2 * ROW - 1], ..table }, limit, cells), Refusal::Table);
            assert_eq!(
                refused(Table { exits: &exits[..2 * EXITS - 1], ..table }, limit, cells),
                Refusal::Table
            );
        }
    }
    for cells in [(0, 0), (1, 2), (2, 1), (2, 2)] {
        assert_eq!(refused(table, NO_LIMIT, cells), Refusal::Limit);
    }
    for cells in [(0, 0), (0, 2), (1, 2), (1, 9), (2, 0), (2, 1), (9, 1), (1, 1)] {
        assert_eq!(refused(table, LARGEST, cells), Refusal::Room);
    }
}

/// Under the largest limit but one a run that ends is counted; the largest is no limit for visits, and one for `run`.
#[test]
fn the_largest_limit() {
    let (rows, exits) = (rows_marked(&[1, 1]), ways(&[Some((Nothing, 1)), None]));
    let table = Table { regions: 2, rows: &rows, exits: &exits };
    let terms = Terms { limit: LARGEST, ..TERMS };
    let ended = (Status::Completed, (vec![1, 1], vec![0, 0], 0));
    assert_eq!(counted(table, Rust, terms, CELLS), ended);
    assert_eq!(counted(table, Page, terms, CELLS), ended);
    let terms = Terms { limit: NO_LIMIT, ..TERMS };
    assert_eq!(table.visits(Rust, terms, CELLS), Err(Error::Refused(Refusal::Limit)));
    let mut room = Counting::of(2, 2, CELLS);
    let ended = run(table, Rust, terms, room.run.lent().run).unwrap();
    assert_eq!((ended.status, ended.steps), (Status::Completed, 1));
}
