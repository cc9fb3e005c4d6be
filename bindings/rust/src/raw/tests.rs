//! What the safe calls do not show: numbers that their types rule out are refused by the archive too, the answers of
//! refused calls, and that no length is another slice's.
use super::{build, classify, history, label, read_p6, run, run_picture, visits, write_p6};
use crate::{HistoryRoom, PictureRoom, RunRoom, Shape, Table, TableRoom, Terms, VisitsRoom, LABEL};

const RED: [u8; 3] = [0xFF, 0, 0];
const ONE_PIXEL: Shape = Shape { height: 1, width: 1, codel: 1 };
/// One region, which IntIn leads back to.
const LOOP: Table =
    Table { regions: 1, rows: &[6, 1, 0, 0, 1], exits: &[1 + 16 * 524_288, 0, 0, 0, 0, 0, 0, 0] };
/// The same, and a node that nothing leads to.
const LOOP_AND_NODE: Table = Table {
    regions: 2,
    rows: &[6, 1, 0, 0, 1, 8, 1, 0, 1, 1],
    exits: &[1 + 16 * 524_288, 0, 0, 0, 0, 0, 0, 0, 0, 0, 0, 0, 0, 0, 0, 0],
};
const TERMS: Terms = Terms { limit: 3, abstract_mode: false, input: b"x\n\n5" };
/// The limit under which no visits are counted.
const NO_LIMIT: Terms = Terms { limit: u64::MAX, ..TERMS };

/// Numbers that name no edition; in fewer bits some of them would.
const NO_EDITIONS: [u32; 8] = [0, 3, 4, 257, 258, 65_537, 1 << 31, u32::MAX];

/// What the run of a picture of one codel is lent, and more than the visits of two regions need and three steps keep.
#[derive(Clone, Debug, PartialEq)]
struct Lent {
    colours: Vec<u8>,
    table: [Vec<u32>; 4],
    stack: [i64; 1],
    kinds: [u8; 1],
    values: [i64; 1],
    visits: [u64; 3],
    unvisited: [u32; 3],
    taken: [u32; 4],
}

impl Lent {
    /// Every cell is 7, to be found again where it stays.
    fn full() -> Self {
        let table = [1, 5, 8, 1].map(|cells| vec![7; cells]);
        Lent {
            colours: vec![7],
            table,
            stack: [7],
            kinds: [7],
            values: [7],
            visits: [7; 3],
            unvisited: [7; 3],
            taken: [7; 4],
        }
    }

    fn room(&mut self) -> PictureRoom<'_> {
        let Lent { colours, table: [map, rows, exits, work], stack, kinds, values, .. } = self;
        let (table, run) = (TableRoom { map, rows, exits, work }, RunRoom { stack, kinds, values });
        PictureRoom { colours, table, run }
    }

    /// The room for visits, with so many cells of the list.
    fn counting(&mut self, listed: usize) -> VisitsRoom<'_> {
        let Lent { stack, kinds, values, visits, unvisited, .. } = self;
        VisitsRoom { run: RunRoom { stack, kinds, values }, visits, unvisited: &mut unvisited[..listed] }
    }

    /// The room for exits, with so many cells for them.
    fn keeping(&mut self, cells: usize) -> HistoryRoom<'_> {
        let Lent { stack, kinds, values, taken, .. } = self;
        HistoryRoom { run: RunRoom { stack, kinds, values }, taken: &mut taken[..cells] }
    }
}

/// Where the lengths of two slices are swapped of which a call asks the same, no answer tells it, so it is the text that is
/// looked at: in the calls with an argument a line, each pointer comes with the length of its slice.
#[test]
fn lengths_of_slices() {
    let lines: Vec<&str> = include_str!("../raw.rs").lines().map(str::trim).collect();
    let mut pointers = 0;
    for pair in lines.windows(2) {
        let lent = pair[0].strip_suffix(".as_ptr(),").or(pair[0].strip_suffix(".as_mut_ptr(),"));
        if let Some(slice) = lent {
            assert_eq!(pair[1], format!("{slice}.len(),"));
            pointers += 1;
        }
    }
    assert!(pointers > 30, "found {pointers}");
}

#[test]
fn settings_above_3() {
    for setting in 4..=u8::MAX {
        let (mut colours, mut answer) = ([7; 1], [7; 2]);
        assert_eq!(classify(&RED, (1, 1), setting, &mut colours, &mut answer), 3);
        assert_eq!((colours, answer), ([7], [0; 2]));
        assert_eq!(classify(&RED, (0, 1), setting, &mut colours, &mut answer), 1);
        assert_eq!(classify(&[], (1, 1), setting, &mut colours, &mut answer), 3);
    }
}

#[test]
fn settings_above_3_for_a_picture() {
    let asked = |shape, setting| {
        let (mut lent, mut answer) = (Lent::full(), [7; 13]);
        let number = run_picture((&RED, shape, setting), 1, TERMS, lent.room(), &mut answer);
        assert_eq!((lent, answer), (Lent::full(), [0; 13]));
        number
    };
    for setting in 4..=u8::MAX {
        assert_eq!(asked(ONE_PIXEL, setting), 3);
        assert_eq!(asked(Shape { height: 0, ..ONE_PIXEL }, setting), 1);
        assert_eq!(asked(Shape { height: 2, codel: 0, ..ONE_PIXEL }, setting), 3);
    }
}

/// A call that is given an edition, what it is lent, and where it answers.
type Call<'a> = &'a dyn Fn(u32, &mut Lent, &mut [u64]) -> u32;

/// The edition comes before what else is wrong, here a side, a setting, a count of regions, a limit and a list without
/// cells, but for too short an answer, which comes first.
#[test]
fn editions_that_are_none() {
    let (no_side, no_region) = (Shape { height: 0, ..ONE_PIXEL }, Table { regions: 0, ..LOOP });
    let calls: [(usize, Call); 5] = [
        (2, &|edition, lent, answer| build(&[20], no_side, edition, lent.room().table, answer)),
        (12, &|edition, lent, answer| run(no_region, edition, TERMS, lent.room().run, answer)),
        (13, &|edition, lent, answer| visits(no_region, edition, NO_LIMIT, lent.counting(0), answer)),
        (12, &|edition, lent, answer| history(no_region, edition, TERMS, lent.keeping(4), answer)),
        (13, &|edition, lent, answer| run_picture((&RED, no_side, 4), edition, TERMS, lent.room(), answer)),
    ];
    for (cells, call) in calls {
        for edition in NO_EDITIONS {
            let (mut lent, mut answer) = (Lent::full(), vec![7; cells + 1]);
            assert_eq!(call(edition, &mut lent, &mut answer[..cells - 1]), 4);
            assert_eq!(answer, vec![7; cells + 1]);
            assert_eq!(call(edition, &mut lent, &mut answer), 15);
            assert_eq!((lent, answer), (Lent::full(), [vec![0; cells], vec![7]].concat()));
        }
        for edition in [1, 2] {
            assert_ne!(call(edition, &mut Lent::full(), &mut vec![7; cells]), 15);
        }
    }
}

/// A run has twelve cells for its answer: with fewer it is refused and nothing is written, and what is longer stays.
#[test]
fn cells_of_a_run() {
    for cells in 0..=13 {
        let (mut lent, mut answer) = (Lent::full(), vec![7; cells]);
        let number = run(LOOP, 1, TERMS, lent.room().run, &mut answer);
        if cells < 12 {
            assert_eq!((number, lent, answer), (4, Lent::full(), vec![7; cells]));
        } else {
            assert_eq!((number, &answer[..12]), (0, &[2, 3, 0, 0, 0, 1, 0, 4, 0, 1, 1, 0][..]));
            assert_eq!(answer[12..], vec![7; cells - 12]);
        }
    }
}

/// Visits have the twelve of their run, and then the count of nodes never entered.
#[test]
fn cells_of_visits() {
    for cells in 0..=14 {
        let (mut lent, mut answer) = (Lent::full(), vec![7; cells]);
        let number = visits(LOOP_AND_NODE, 1, TERMS, lent.counting(3), &mut answer);
        if cells < 13 {
            assert_eq!((number, lent, answer), (4, Lent::full(), vec![7; cells]));
        } else {
            assert_eq!((number, &answer[..13]), (0, &[2, 3, 0, 0, 0, 1, 0, 4, 0, 1, 1, 0, 1][..]));
            assert_eq!((lent.visits, lent.unvisited), ([4, 0, 7], [1, 0, 7]));
            assert_eq!(answer[13..], vec![7; cells - 13]);
        }
    }
}

/// A history has the twelve of its run. The slice for exits may have any length.
#[test]
fn cells_of_a_history() {
    let exit = LOOP.exits[0];
    for cells in 0..=13 {
        for (kept, taken) in [(0, [7, 7, 7, 7]), (2, [exit, exit, 7, 7]), (4, [exit, exit, exit, 7])] {
            let (mut lent, mut answer) = (Lent::full(), vec![7; cells]);
            let number = history(LOOP, 1, TERMS, lent.keeping(kept), &mut answer);
            if cells < 12 {
                assert_eq!((number, lent, answer), (4, Lent::full(), vec![7; cells]));
            } else {
                assert_eq!((number, &answer[..12]), (0, &[2, 3, 0, 0, 0, 1, 0, 4, 0, 1, 1, 0][..]));
                assert_eq!((lent.taken, &answer[12..]), (taken, &vec![7; cells - 12][..]));
            }
        }
    }
}

/// A picture has the twelve of its run, and then the count of regions.
#[test]
fn cells_of_a_picture() {
    for cells in 0..=14 {
        let (mut lent, mut answer) = (Lent::full(), vec![7; cells]);
        let number = run_picture((&RED, ONE_PIXEL, 1), 1, TERMS, lent.room(), &mut answer);
        if cells < 13 {
            assert_eq!((number, lent, answer), (4, Lent::full(), vec![7; cells]));
        } else {
            assert_eq!((number, &answer[..13]), (0, &[1, 0, 0, 0, 0, 0, 0, 0, 0, 0, 0, 0, 1][..]));
            assert_eq!(answer[13..], vec![7; cells - 13]);
        }
    }
}

/// A refused run leaves zeros in the answer, but for the place of an unknown pixel, whatever stood there.
#[test]
fn refused_runs() {
    let (mut lent, mut answer) = (Lent::full(), [7; 13]);
    assert_eq!(run(Table { regions: 2, ..LOOP }, 1, TERMS, lent.room().run, &mut answer[..12]), 10);
    assert_eq!(answer, [0, 0, 0, 0, 0, 0, 0, 0, 0, 0, 0, 0, 7]);

    let mut answer = [7; 13];
    assert_eq!(history(Table { regions: 2, ..LOOP }, 1, TERMS, lent.keeping(4), &mut answer[..12]), 10);
    assert_eq!((&lent, answer), (&Lent::full(), [0, 0, 0, 0, 0, 0, 0, 0, 0, 0, 0, 0, 7]));

    let (mut answer, one_row) = ([7; 13], Shape { width: 2, ..ONE_PIXEL });
    lent.colours.push(7);
    let before = lent.clone();
    assert_eq!(run_picture((b"\xFF\0\0abc", one_row, 1), 1, TERMS, lent.room(), &mut answer), 5);
    assert_eq!((lent, answer), (before, [0, 1, 0, 0, 0, 0, 0, 0, 0, 0, 0, 0, 0]));
}

/// Each of these is refused for what comes first, and leaves zeros in the answer.
#[test]
fn refused_visits() {
    let no_table = Table { regions: 3, ..LOOP_AND_NODE };
    let cases = [
        (15, 0, no_table, NO_LIMIT, 0),
        (10, 1, no_table, NO_LIMIT, 0),
        (16, 1, LOOP_AND_NODE, NO_LIMIT, 0),
        (16, 1, LOOP_AND_NODE, NO_LIMIT, 2),
        (4, 1, LOOP_AND_NODE, TERMS, 0),
        (4, 1, LOOP_AND_NODE, TERMS, 1),
    ];
    for (refusal, edition, table, terms, listed) in cases {
        let (mut lent, mut answer) = (Lent::full(), [7; 14]);
        assert_eq!(visits(table, edition, terms, lent.counting(listed), &mut answer), refusal);
        assert_eq!((lent, answer), (Lent::full(), [0, 0, 0, 0, 0, 0, 0, 0, 0, 0, 0, 0, 0, 7]));
    }
}

/// A refused call leaves zeros in the answer, whatever stood there.
#[test]
fn refused_files() {
    let (mut lent, mut sides, mut length) = ([7; 16], [7; 2], [7; 1]);
    assert_eq!(read_p6(b"P6 1 1 255\nab", &mut lent, &mut sides), 14);
    assert_eq!(write_p6(b"ab", (1, 1), &mut lent, &mut length), 2);
    assert_eq!((lent, sides, length), ([7; 16], [0; 2], [0]));
}

#[test]
fn colours_above_19() {
    for colour in 20..=u8::MAX {
        let (mut out, mut answer) = ([7; LABEL], [7; 1]);
        assert_eq!(label(colour, (0, 0), &mut out, &mut answer), 12);
        assert_eq!((out, answer), ([7; LABEL], [0]));
    }
}
