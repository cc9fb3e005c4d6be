//! The pictures whose tables by the first edition are replayed.
use harness::paint::drawn;
use harness::picture::Picture;
use harness::random::Random;

const SEED: u64 = 1;
const BY_CHANCE: usize = 250;
const LONGEST: u32 = 8;

/// Right, down, left, up.
const MOVES: [(usize, usize); 4] = [(0, 1), (1, 0), (0, usize::MAX), (usize::MAX, 0)];

pub fn pictures() -> Vec<Picture> {
    let mut all = document();
    all.extend(entries());
    all.extend(codels());
    all.extend(shapes());
    all.extend(slides());
    all.extend(apart_from_the_page());
    all.extend((6..=10).flat_map(spirals));
    // Red, light red, white, black.
    all.extend(small(&[6, 12, 19, 18]));
    let mut random = Random::seeded(SEED);
    all.extend((0..BY_CHANCE).map(|_| random.picture(LONGEST)));
    all
}

/// Those that the rules name.
fn document() -> Vec<Picture> {
    let drawings: [&[&str]; 7] =
        [&["Rr"], &["r."], &["r.r"], &["r..", "#.."], &["#r"], &["."], &["r#", ".r"]];
    drawings.map(|lines| drawn(1, lines)).into()
}

/// Black, white and coloured first pixels, in regions of several codels too.
fn entries() -> Vec<Picture> {
    let drawings: [&[&str]; 10] = [
        &["#"],
        &["0"],
        &["M"],
        &["##", "#r"],
        &["#.", ".r"],
        &["#.y", "r#."],
        &["r#", "##"],
        &["..", "rr"],
        &[".r", "r."],
        &["##r", "r##", "#.#"],
    ];
    drawings.map(|lines| drawn(1, lines)).into()
}

/// Codel widths that do not divide the sides, and pixels that no codel takes its colour from.
fn codels() -> Vec<Picture> {
    let square = ["rryyb", "rryyb", "ggrr#", "ggrr#", "...yy"];
    let wide = ["rrryyygg", "r#ry.ygg", "rrryyygg", "bbb...##", "bbb...#r"];
    let odd = ["r.#", "#yg", "bmc"];
    let mut all: Vec<Picture> = (1..=3).map(|codel| drawn(codel, &square)).collect();
    all.extend((1..=3).map(|codel| drawn(codel, &wide)));
    all.extend((1..=3).map(|codel| drawn(codel, &odd)));
    all.push(drawn(3, &["rrry"]));
    all.push(drawn(3, &["rr"]));
    all.push(drawn(2, &["r", "y", "."]));
    all.push(drawn(200, &["r."]));
    all
}

/// Regions with holes, with arms, and touching by their corners only.
fn shapes() -> Vec<Picture> {
    let drawings: [&[&str]; 10] = [
        &["rrr", "ryr", "rrr"],
        &["rrrr", "r..r", "r.yr", "rrrr"],
        &["yrrry", "rrgrr", "rg#gr", "rrgrr", "yrrry"],
        &["rrrrr", "ryyyr", "ygrgy", "ryyyr", "rrrrr"],
        &["ryr", "ryr", "rrr"],
        &["rrr", "yyr", "rrr", "ryy", "rrr"],
        &["ryry", "yryr", "ryry"],
        &["#y#", "yry", "#y#"],
        &["rr.yy", "r...y", ".....", "g...b", "gg.bb"],
        &["r#r#r", "r#r#r", "rrrrr"],
    ];
    drawings.map(|lines| drawn(1, lines)).into()
}

/// White fields that are left by turning, or not at all.
pub fn slides() -> Vec<Picture> {
    let drawings: [&[&str]; 12] = [
        &["r..", "##y"],
        &["r..", "##.", "y.."],
        &["r...", "###.", "y#..", "...#"],
        &["r.#", ".#.", "#.y"],
        &["r....", "....y"],
        &["r.#y", "##.."],
        &["r", ".", "#"],
        &["r..r", ".##.", ".##.", "r..y"],
        &["##..", "r...", "##.y"],
        &["y.#", ".r.", "#.g"],
        &["r.....", "#.###.", "#.#y#.", "#....."],
        &["r.#.r", ".....", "#.y.#", ".....", "r.#.r"],
    ];
    drawings.map(|lines| drawn(1, lines)).into()
}

/// The pictures of docs/DIFFERENCES.md on which the slide of the page ends otherwise: those with an eighth turn, in a run
/// or in an exit alone, and those with another attempt after a slide that is lost.
pub fn apart_from_the_page() -> Vec<Picture> {
    let drawings: [&[&str]; 9] = [
        &["r.#", "r..", "#..", "#.#", "..r"],
        &["r..", "b#."],
        &["r.##", "#..r", "...#", "##.#"],
        &["rr#r", "#...", "...#", "r#.r"],
        &["r.##", "#...", "..r#"],
        &["#r..", "...#", ".#.r"],
        &["###", ".#.", "...", "r.#", "#.r"],
        &["r..", ".#."],
        &["#.", "r#"],
    ];
    drawings.map(|lines| drawn(1, lines)).into()
}

/// A white path with so many turns to the right, between black walls, to a yellow codel; entered to
/// the right, downward, and in codels of width 2 that the sides cut.
pub fn spirals(turns: usize) -> [Picture; 3] {
    let (cells, side) = (spiral_cells(turns, 7), turns + 3);
    let scaled = |scale: usize, cell: &dyn Fn(usize, usize) -> u8| {
        let end = scale * side + 1 - scale;
        let pixels = (0..end).flat_map(|r| (0..end).map(move |c| (r / scale, c / scale)));
        let colours = pixels.map(|(r, c)| cell(r, c)).collect();
        Picture { height: end as u32, width: end as u32, codel: scale as u32, colours }
    };
    let straight = |r: usize, c: usize| cells[r][c];
    [scaled(1, &straight), scaled(1, &|r, c| cells[c][r]), scaled(2, &straight)]
}

/// The first of them, to a codel of this colour.
pub fn spiral(turns: usize, end: u8) -> Picture {
    let (side, colours) = (turns as u32 + 3, spiral_cells(turns, end).concat());
    Picture { height: side, width: side, codel: 1, colours }
}

fn spiral_cells(turns: usize, end: u8) -> Vec<Vec<u8>> {
    let side = turns + 3;
    let mut cells = vec![vec![18; side]; side];
    let path = spiral_path(turns, side);
    for &(r, c) in &path {
        cells[r][c] = 19;
    }
    let (last_row, last_column) = path[path.len() - 1];
    (cells[0][0], cells[last_row][last_column]) = (6, end);
    cells
}

/// The codels from (0,0) inward. The first three ways run along the sides, and after them each
/// second one is shorter by two.
fn spiral_path(turns: usize, side: usize) -> Vec<(usize, usize)> {
    let mut path = vec![(0usize, 0usize)];
    for way in 0..=turns {
        let length = side - 1 - 2 * (way.saturating_sub(1) / 2);
        let (down, right) = MOVES[way % 4];
        for _ in 0..length {
            let (r, c) = path[path.len() - 1];
            path.push((r.wrapping_add(down), c.wrapping_add(right)));
        }
    }
    path
}

/// Every picture of sides up to 2 over these colours.
pub fn small(colours: &[u8]) -> Vec<Picture> {
    let sides = [(1, 1), (1, 2), (2, 1), (2, 2)];
    sides.into_iter().flat_map(|(height, width)| over(colours, height, width)).collect()
}

fn over(few: &[u8], height: u32, width: u32) -> impl Iterator<Item = Picture> + '_ {
    let (count, base) = (height * width, few.len());
    let colour = move |word: usize, at: u32| few[word / base.pow(at) % base];
    (0..base.pow(count)).map(move |word| {
        let colours = (0..count).map(|at| colour(word, at)).collect();
        Picture { height, width, codel: 1, colours }
    })
}
