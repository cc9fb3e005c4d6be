//! Building, and runs over tables.
use crate::support::{built, row_of, Slices, CELLS, TERMS};
use piet::{build, determine_runs_forever, run, Colour, Edition, Refusal, Shape, Table, MOST_CODELS};

/// The refusal of building, in both editions, which has to leave every slice as it was.
fn build_refused(colours: &[u8], (height, width, codel): (usize, usize, usize), slices: Slices) -> Refusal {
    let shape = Shape { height, width, codel };
    let refused =
        |edition| crate::support::refused(slices.clone(), |lent| build(colours, shape, edition, lent.table));
    assert_eq!(refused(Edition::Page), refused(Edition::Rust));
    refused(Edition::Rust)
}

/// The refusal of a run, in both editions, which has to leave every slice as it was; asking whether it ends is refused
/// alike.
fn table_refused(table: Table) -> Refusal {
    let slices = || Slices::of(row_of(0), CELLS);
    let refused = |edition| crate::support::refused(slices(), |lent| run(table, edition, TERMS, lent.run));
    let refusal = refused(Edition::Rust);
    assert_eq!((refused(Edition::Page), determine_runs_forever(table)), (refusal, Err(refusal)));
    refusal
}

#[test]
fn building_refuses_in_order() {
    for side in [0, 1_025, usize::MAX] {
        assert_eq!(build_refused(&[20], (side, 1, 0), Slices::none()), Refusal::Size);
        assert_eq!(build_refused(&[20], (1, side, 0), Slices::none()), Refusal::Size);
    }
    for codel in [0, 1_025, usize::MAX] {
        assert_eq!(build_refused(&[20], (1_024, 1_024, codel), Slices::none()), Refusal::Codel);
    }
    assert_eq!(build_refused(&[20], (1_024, 1_024, 1), Slices::none()), Refusal::Grid);
    assert_eq!(build_refused(&[20], (1, 2, 1), Slices::none()), Refusal::Bytes);
    assert_eq!(build_refused(&[], (1, 1, 1), Slices::none()), Refusal::Bytes);
    assert_eq!(build_refused(&[19, 20], (1, 2, 1), Slices::none()), Refusal::Colour { index: 1 });
    assert_eq!(build_refused(&[19, 6], (1, 2, 1), Slices::none()), Refusal::White);
    assert_eq!(build_refused(&[6], (1, 1, 1), Slices::none()), Refusal::Room);
}

#[test]
fn building_needs_each_slice() {
    for short in 0..4 {
        let mut slices = Slices::of(row_of(2), CELLS);
        slices.table[short].pop();
        assert_eq!(build_refused(&[12, 6], (1, 2, 1), slices), Refusal::Room);
    }
}

#[test]
fn tables_refused() {
    let (rows, exits) = ([6, 1, 0, 0, 1], [1, 0, 0, 0, 0, 0, 0, 0]);
    let table = Table { regions: 1, rows: &rows, exits: &exits };
    assert_eq!(determine_runs_forever(table), Ok(true));
    for regions in [0, 2, MOST_CODELS + 1, usize::MAX] {
        assert_eq!(table_refused(Table { regions, ..table }), Refusal::Table);
    }
    assert_eq!(table_refused(Table { regions: 0, rows: &[], exits: &[] }), Refusal::Table);
    assert_eq!(table_refused(Table { rows: &rows[..4], ..table }), Refusal::Table);
    assert_eq!(table_refused(Table { exits: &exits[..7], ..table }), Refusal::Table);
    assert_eq!(table_refused(Table { rows: &[6, 1, 0, 0, 2], ..table }), Refusal::Table);
    for exit in [2, 9_437_184, 9_437_186, u32::MAX] {
        assert_eq!(table_refused(Table { exits: &[0, 0, 0, 0, 0, 0, 0, exit], ..table }), Refusal::Table);
    }
}

#[test]
fn one_codel_does_not_run_forever() {
    let (regions, slices) = built(&[Colour::Red], row_of(1));
    assert_eq!(determine_runs_forever(slices.table(regions)), Ok(false));
}
