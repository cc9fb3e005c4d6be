//! The pictures whose tables by the second edition are replayed.
use crate::pictures::{apart_from_the_page, slides, small, spirals};
use harness::paint::drawn;
use harness::picture::Picture;
use harness::random::Random;

const SEED: u64 = 13;
const BY_CHANCE: usize = 60;
const LONGEST: u32 = 7;

pub fn pictures() -> Vec<Picture> {
    let mut all =
        [examples(), lost_first(), lost_later(), slides(), apart_from_the_page()].concat();
    all.extend((7..=8).flat_map(spirals));
    all.push(long_spiral());
    // Red, white, black.
    all.extend(small(&[6, 19, 18]));
    let mut random = Random::seeded(SEED);
    all.extend((0..BY_CHANCE).map(|_| random.pale_picture(LONGEST)));
    all
}

/// The examples of the second edition: a slide that is lost, the smallest runs that end by one, and a node that is
/// found though both slides are lost.
pub fn examples() -> Vec<Picture> {
    let drawings: [&[&str]; 6] = [
        &["r.", "#."],
        &["r..", ".#."],
        &["rr.", ".#."],
        &["r.", "..", "#."],
        &["r.", "#r", ".."],
        &["r.#", "#.r"],
    ];
    drawings.map(|lines| drawn(1, lines)).into()
}

/// The first attempt of region 0 is a lost slide: with nothing after it or something, from black, in codels of width 2 that
/// the sides cut, and on to a state that is not the slide's first.
pub fn lost_first() -> Vec<Picture> {
    let drawings: [&[&str]; 8] = [
        &["r.#", "#.#"],
        &["r..", "b#."],
        &["r..", "##.", "y#."],
        &["r...", "y##."],
        &["#."],
        &["#..", "##."],
        &["##.", "##.", "r#."],
        &["rr.", "r#."],
    ];
    let mut all: Vec<Picture> = drawings.map(|lines| drawn(1, lines)).into();
    all.push(drawn(2, &["r.....", "......", "..##.."]));
    all
}

/// A lost slide after shut attempts, after an open one, and from a later region: to the right, left, up, and after three steps.
pub fn lost_later() -> Vec<Picture> {
    let drawings: [&[&str]; 6] = [
        &["rr", "#r", ".."],
        &["rrR", "#r#", "..#"],
        &["rR.", "##."],
        &["rr.", "#RR", ".#.", ".RR"],
        &["r#..", ".#R#", "rrr#"],
        &["rRr", "r#R", "#.."],
    ];
    drawings.map(|lines| drawn(1, lines)).into()
}

/// Nine turns between black walls, to the red codel in the middle.
pub fn long_spiral() -> Picture {
    let lines = [
        "r.......", "#######.", "......#.", ".####.#.", ".#..#.#.", ".#.r#.#.", ".#.##.#.",
        ".#....#.", ".######.", "........",
    ];
    drawn(1, &lines)
}
