//! Exits decoded from their cells.
use crate::support::{built, row_of};
use piet::{Attempt, Cc, Colour, Dp, Exit, Instruction, Pointers, Region, Shape, Table, EXITS};

/// The largest cell that is an exit.
const LARGEST: u32 = 9_437_184;

/// The open exits of a region, each with the state that it is for.
fn open(table: Table, region: usize) -> Vec<(u8, Exit)> {
    let states = (0..EXITS as u8).map(|state| Pointers::try_from(state).unwrap());
    states.filter_map(|pointers| table.exit(region, pointers).map(|exit| (pointers.state(), exit))).collect()
}

fn exit(target: u16, dp: Dp, cc: Cc, instruction: Instruction) -> Exit {
    Exit { target, pointers: Pointers { dp, cc }, instruction }
}

/// The open exits of region 0 of one row of colours.
fn first_exits(colours: &[Colour]) -> Vec<(u8, Exit)> {
    let (regions, slices) = built(colours, row_of(colours.len()));
    open(slices.table(regions), 0)
}

#[test]
fn cells_that_are_none() {
    for cell in [0, LARGEST + 1, LARGEST + 65_536, 1 << 24, 256 * 524_288 + 1, u32::MAX] {
        assert_eq!(Exit::of(cell), None);
    }
}

#[test]
fn every_cell_both_ways() {
    assert_eq!(Exit::of(1), Some(exit(0, Dp::Right, Cc::Left, Instruction::None)));
    assert_eq!(Exit::of(LARGEST), Some(exit(65_535, Dp::Up, Cc::Right, Instruction::IntOut)));
    for cell in 1..=LARGEST {
        assert_eq!(Exit::of(cell).map(Exit::cell), Some(cell));
    }
}

/// 0 is shut, a cell above the largest exit is a lost slide, and those above it stand for nothing.
#[test]
fn attempts_both_ways() {
    assert_eq!(Attempt::of(0), Some(Attempt::Shut));
    assert_eq!(Attempt::of(LARGEST + 1), Some(Attempt::Lost));
    for cell in 0..=LARGEST + 1 {
        let attempt = Attempt::of(cell).unwrap();
        assert_eq!(attempt.cell(), cell);
        assert_eq!(matches!(attempt, Attempt::Open(_)), (1..=LARGEST).contains(&cell));
    }
    for cell in [LARGEST + 2, LARGEST + 65_537, 1 << 24, u32::MAX] {
        assert_eq!(Attempt::of(cell), None);
    }
}

#[test]
fn worked_picture() {
    let (regions, slices) = built(&[Colour::LightRed, Colour::Red], row_of(2));
    let there = |cc| exit(1, Dp::Right, cc, Instruction::Push);
    let back = |cc| exit(0, Dp::Left, cc, Instruction::Pop);
    let table = slices.table(regions);
    assert_eq!(open(table, 0), [(0, there(Cc::Left)), (1, there(Cc::Right))]);
    assert_eq!(open(table, 1), [(4, back(Cc::Left)), (5, back(Cc::Right))]);
}

#[test]
fn slides() {
    let slid = |target, dp, cc| exit(target, dp, cc, Instruction::None);
    let back = [(0, slid(0, Dp::Left, Cc::Left)), (1, slid(0, Dp::Left, Cc::Right))];
    assert_eq!(first_exits(&[Colour::Red, Colour::White]), back);
    let across = [(0, slid(2, Dp::Right, Cc::Left)), (1, slid(2, Dp::Right, Cc::Right))];
    assert_eq!(first_exits(&[Colour::Red, Colour::White, Colour::Red]), across);
    assert_eq!(first_exits(&[Colour::Red, Colour::White, Colour::Green]), across);
    assert_eq!(first_exits(&[Colour::Red, Colour::Black]), []);
    // from black nothing is done
    let onward = [(0, slid(1, Dp::Right, Cc::Left)), (1, slid(1, Dp::Right, Cc::Right))];
    assert_eq!(first_exits(&[Colour::Black, Colour::Red]), onward);
    assert_eq!(first_exits(&[Colour::Black, Colour::White]), []);
}

/// Beside each of the eighteen colours; what is first white is refused.
#[test]
fn black_and_white_mean_none() {
    let none = |target, dp| {
        [(0, Cc::Left), (1, Cc::Right)].map(|(state, cc)| (state, exit(target, dp, cc, Instruction::None)))
    };
    for &colour in &Colour::ALL[..18] {
        assert_eq!(first_exits(&[colour, Colour::Black]), [], "{colour:?}");
        assert_eq!(first_exits(&[Colour::Black, colour]), none(1, Dp::Right), "{colour:?}");
        assert_eq!(first_exits(&[colour, Colour::White]), none(0, Dp::Left), "{colour:?}");
    }
}

#[test]
fn a_slide_round_a_corner() {
    use Colour::{Black, Green, Red, White};
    let (regions, slices) = built(&[Red, White, Black, Green], Shape { height: 2, width: 2, codel: 1 });
    let turned = |cc| exit(3, Dp::Down, cc, Instruction::None);
    assert_eq!(open(slices.table(regions), 0), [(0, turned(Cc::Right)), (1, turned(Cc::Left))]);
}

#[test]
fn rows() {
    let shape = Shape { height: 4, width: 4, codel: 2 };
    let colours = [[Colour::Red; 8], [Colour::White; 8]].concat();
    let (regions, slices) = built(&colours, shape);
    let table = slices.table(regions);
    let red = Region { colour: Colour::Red, size: 2, row: 0, column: 0, node: true };
    assert_eq!(table.region(0), Some(red));
    let white = Region { colour: Colour::White, size: 2, row: 2, column: 0, node: false };
    assert_eq!(table.region(1), Some(white));
    assert_eq!((red.label().unwrap(), white.label().unwrap()), ("Entry".into(), "White_2_0".into()));
}

#[test]
fn cells_that_a_table_has_not() {
    let (regions, slices) = built(&[Colour::LightRed, Colour::Red], row_of(2));
    let start = Pointers { dp: Dp::Right, cc: Cc::Left };
    for number in [2, 65_536, usize::MAX] {
        assert_eq!(slices.table(regions).region(number), None);
        assert_eq!(slices.table(usize::MAX).region(number), None);
        assert_eq!(slices.table(usize::MAX).exit(number, start), None);
    }
    assert_eq!(slices.table(1).region(1), None);
    for row in [[20, 1, 0, 0, 1], [u32::MAX, 1, 0, 0, 1], [6, 1, 0, 0, 2]] {
        assert_eq!(Region::of(row), None);
    }
}
