//! What is measured on.
use harness::numbers::palette;
use harness::paint::{row, row_over_white, Op};
use harness::picture::Picture;
use harness::random::Random;
use piet_core::instruction::Instruction::*;

const SEED: u64 = 7;
const BLACK: u8 = 18;
const WHITE: u8 = 19;

/// Right, down, left, up.
const MOVES: [(usize, usize); 4] = [(0, 1), (1, 0), (0, usize::MAX), (usize::MAX, 0)];

/// Known pixels of a square picture, and its side.
pub fn pixels() -> (Vec<[u8; 3]>, usize) {
    let (mut random, palette) = (Random::seeded(SEED), palette());
    ((0..1 << 20).map(|_| random.pick(&palette)).collect(), 1_024)
}

/// As many pixels by chance, nearly all of them unknown.
pub fn strange() -> Vec<[u8; 3]> {
    let mut random = Random::seeded(SEED);
    (0..1 << 20).map(|_| [0; 3].map(|_: u8| random.below(256) as u8)).collect()
}

/// A scanned picture: codels of 10 x 10 pixels, with unknown pixels where two of them meet.
pub fn scan(side: usize) -> Vec<[u8; 3]> {
    let (mut random, palette) = (Random::seeded(SEED), palette());
    let codels: Vec<[u8; 3]> = (0..side * side).map(|_| random.pick(&palette)).collect();
    let pixel = |i: usize| {
        let (row, column) = (i / side, i % side);
        let colour = codels[row / 10 * side + column / 10];
        let edge = row % 10 == 0 || column % 10 == 0;
        if edge {
            colour.map(|byte| byte ^ random.below(16) as u8)
        } else {
            colour
        }
    };
    (0..side * side).map(pixel).collect()
}

/// Each texture on 4,096 and on 65,536 codels.
pub fn textures() -> Vec<(&'static str, usize, Picture)> {
    let textures: [(&str, fn(&mut Random, usize) -> Vec<u8>); 4] = [
        ("mixed", mixed),
        ("many regions", many_regions),
        ("few regions", few_regions),
        ("much white", much_white),
    ];
    let mut all = vec![];
    for (name, texture) in textures {
        for side in [64, 256] {
            let mut colours = texture(&mut Random::seeded(SEED), side);
            colours[0] = 6;
            let (height, width) = (side as u32, side as u32);
            all.push((name, side, Picture { height, width, codel: 1, colours }));
        }
    }
    all
}

/// Blocks of 8 x 8 codels of any colour, white and black among them, with single codels of others.
fn mixed(random: &mut Random, side: usize) -> Vec<u8> {
    let blocks = blocks(random, side, 8, &[0, 6, 7, 9, 12, 16, BLACK, WHITE]);
    let single = |c: u8| if random.one_in(24) { random.pick(&[6, 13, BLACK, WHITE]) } else { c };
    blocks.into_iter().map(single).collect()
}

/// Blocks of 2 x 2 codels.
fn many_regions(random: &mut Random, side: usize) -> Vec<u8> {
    let colours: Vec<u8> = (0..BLACK).collect();
    blocks(random, side, 2, &colours)
}

/// Sixteen blocks.
fn few_regions(random: &mut Random, side: usize) -> Vec<u8> {
    blocks(random, side, side / 4, &[6, 7, 8, 12, 13, 14])
}

/// White, with a coloured codel at every thirty-second place of every thirty-second row.
fn much_white(random: &mut Random, side: usize) -> Vec<u8> {
    let coloured = |at: usize| at / side % 32 == 0 && at % side % 32 == 0;
    let codel = |at: usize| if coloured(at) { random.below(BLACK as u32) as u8 } else { WHITE };
    (0..side * side).map(codel).collect()
}

/// Pictures of 65,536 codels at the ends of what a picture can be; the Rust needs minutes for the first.
pub fn extremes() -> Vec<(&'static str, Picture)> {
    let side = 256;
    let extremes: [(&str, fn(usize) -> u8); 3] = [
        ("all codels apart", |at| ((at % 256 + 2 * (at / 256)) % 18) as u8),
        ("one region", |_| 6),
        ("a white field", |at| if at % 97 == 0 { (at % 18) as u8 } else { WHITE }),
    ];
    let picture = |codel: fn(usize) -> u8| {
        let colours = (0..side * side).map(codel).collect();
        Picture { height: side as u32, width: side as u32, codel: 1, colours }
    };
    extremes.into_iter().map(|(name, codel)| (name, picture(codel))).collect()
}

/// Pictures with many slides, and whether the Rust builds one within seconds.
pub fn slides() -> Vec<(String, Picture, bool)> {
    let mut all = vec![
        ("white, 1.6% blocks".into(), scattered(16, 0), false),
        ("white, 1.6% blocks, 3% black".into(), scattered(16, 30), false),
        ("white, 10% blocks, 10% black".into(), scattered(100, 100), false),
    ];
    for apart in [8, 32] {
        for black in [0, 5, 10, 20, 30, 40] {
            let name = format!("rows {apart} apart, {black}% black");
            all.push((name, coloured_rows(apart, 10 * black), (apart, black) == (32, 40)));
        }
    }
    for (name, end) in [("corridor that lands", 12), ("corridor that is lost", WHITE)] {
        all.extend([64, 128, 256].map(|side| (name.into(), corridor(side, end), side == 64)));
    }
    all
}

fn square(side: usize, mut colours: Vec<u8>) -> Picture {
    colours[0] = 6;
    Picture { height: side as u32, width: side as u32, codel: 1, colours }
}

/// White with codels of any colour and of black, so many in a thousand. By this seed the first slide of each leads on.
fn scattered(coloured: u32, black: u32) -> Picture {
    let (mut random, side) = (Random::seeded(SEED + 1), 256);
    let mut codel = || match random.below(1_000) {
        chance if chance < coloured => random.below(BLACK as u32) as u8,
        chance if chance < coloured + black => BLACK,
        _ => WHITE,
    };
    square(side, (0..side * side).map(|_| codel()).collect())
}

/// Rows so far apart and the first column are of two colours by turns, so that each of their codels is a node; between them
/// is white, with so many in a thousand black.
fn coloured_rows(apart: usize, black: u32) -> Picture {
    let (mut random, side) = (Random::seeded(SEED), 256);
    let mut codel = |row: usize, column: usize| {
        if row % apart == 0 || column == 0 {
            [7, 6][(row + column) % 2]
        } else if random.below(1_000) < black {
            BLACK
        } else {
            WHITE
        }
    };
    square(side, (0..side * side).map(|at| codel(at / side, at % side)).collect())
}

/// A white way inward, clockwise and two codels apart, with codels of two colours by turns along its inner side. All of them
/// are nodes, and slide to its end.
fn corridor(side: usize, end: u8) -> Picture {
    let (mut cells, path) = (vec![BLACK; side * side], corridor_path(side));
    for &(at, _) in &path {
        cells[at] = WHITE;
    }
    // Beside the last ones is black, so that a slide lands at the end or nowhere.
    for &(at, way) in &path[..path.len() - 3] {
        let (row, column) = moved((at / side, at % side), (way + 1) % 4);
        if row < side && column < side && cells[row * side + column] == BLACK {
            cells[row * side + column] = [7, 6][(row + column) % 2];
        }
    }
    cells[path[path.len() - 1].0] = end;
    square(side, cells)
}

/// The places of the way, each with the direction that leads to it. After the first three directions, which run along the
/// sides, each second one is shorter by three.
fn corridor_path(side: usize) -> Vec<(usize, usize)> {
    let shorter = |way: usize| 3 * (way.saturating_sub(1) / 2);
    let lengths = (0..).map(|way| (side - 1).saturating_sub(shorter(way)));
    let (mut at, mut path) = ((0, 0), vec![(0, 0)]);
    for (way, length) in lengths.take_while(|&length| length > 1).enumerate() {
        for _ in 0..length {
            at = moved(at, way % 4);
            path.push((at.0 * side + at.1, way % 4));
        }
    }
    path
}

fn moved((row, column): (usize, usize), way: usize) -> (usize, usize) {
    let (down, right) = MOVES[way];
    (row.wrapping_add(down), column.wrapping_add(right))
}

/// Square blocks of this size, each of one of these colours.
fn blocks(random: &mut Random, side: usize, size: usize, colours: &[u8]) -> Vec<u8> {
    let across = side / size;
    let of_blocks: Vec<u8> = (0..across * across).map(|_| random.pick(colours)).collect();
    let cell = |at: usize| of_blocks[at / side / size * across + at % side / size];
    (0..side * side).map(cell).collect()
}

/// Pictures on which a run goes on without end, in little room.
pub fn programs() -> Vec<(&'static str, Picture)> {
    let counting = [(Push, 1), (Add, 1), (Push, 1), (Ptr, 1)];
    let mixed = [
        (Push, 5),
        (Push, 3),
        (Mul, 1),
        (Push, 4),
        (Mod, 1),
        (Dup, 1),
        (Push, 2),
        (Push, 1),
        (Roll, 1),
        (Gt, 1),
        (Not, 1),
        (Pop, 1),
        (Push, 1),
        (Ptr, 1),
    ];
    vec![
        ("counting loop", row_over_white(&counting)),
        ("sliding", sliding()),
        ("mixed", row_over_white(&mixed)),
    ]
}

/// Two loops that put the top and 1 on the stack as a sum each time round, at first 1, and then roll twice the product of the
/// factors deep, by 1 and by the product. They differ in the instructions that make the count: as many, with one Div or Mul.
pub fn rolls([p, q]: [usize; 2]) -> [Vec<Op>; 2] {
    let one_more = [(Dup, 1), (Push, 1), (Add, 1)];
    let depth = [(Push, p), (Push, q), (Mul, 1), (Push, 2), (Mul, 1)];
    let counts = [[(Push, p), (Push, p), (Div, 1)], [(Push, p), (Push, q), (Mul, 1)]];
    counts.map(|by| [&one_more[..], &depth, &by, &[(Roll, 1), (Push, 1), (Ptr, 1)]].concat())
}

/// Two blocks at the ends of a white row.
fn sliding() -> Picture {
    let mut picture = row(&[(Push, 40)]);
    picture.colours[1..40].fill(WHITE);
    picture
}
