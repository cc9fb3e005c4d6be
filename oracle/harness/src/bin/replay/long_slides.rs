//! Slides about their eighth turn and after it, and lost ones: pictures and runs in both editions, after all others.
use crate::jobs::question;
use crate::page_pictures::long_spiral;
use crate::pictures::spiral;
use crate::records::{Asked, Job};
use harness::editions::{grid, table, Editions, Left, PAGE, RUST};
use harness::page::{build, build_short, Parting};
use harness::paint::drawn;
use harness::picture::Picture;
use harness::question::Question;
use harness::random::{Random, BLACK, WHITE};

const SEED: u64 = 18;
const BY_CHANCE: usize = 4;
const LONG_BY_CHANCE: usize = 18;
const RUNS_BY_CHANCE: usize = 4;
const LONGEST: u32 = 14;
const MOST_PIXELS: usize = 80;

const YELLOW: u8 = 7;

/// By the second edition, and after them, by the first, those of which it has another table.
pub fn tables() -> Vec<Asked> {
    let mut random = Random::seeded(SEED);
    let mut all = [examples(), spirals()].concat();
    all.extend((0..BY_CHANCE).map(|_| random.white_ways(LONGEST)));
    all.extend((0..LONG_BY_CHANCE).map(|_| with_long_slide(&mut random)));
    let differs = |p: &&Picture| {
        let [rust, page] = [RUST, PAGE].map(|edition| table(p, edition).map(|b| (b.rows, b.exits)));
        rust != page
    };
    let by = |edition: u32| move |picture: &Picture| Asked { edition, picture: picture.clone() };
    all.iter().map(by(PAGE)).chain(all.iter().filter(differs).map(by(RUST))).collect()
}

/// Lost slides that come back to a state after the first, the smallest table and the smallest run with a long slide, the
/// long spiral to another colour and around black, and spirals of seven and of eight turns.
fn examples() -> Vec<Picture> {
    let drawings: [&[&str]; 4] = [
        &["r..", "##."],
        &["r..", "r#."],
        &["r.##", "#...", "..y#"],
        &["r.##", "#..y", "...#", "##.#"],
    ];
    let drawn = drawings.map(|lines| drawn(1, lines));
    let spirals = [spiral_to(YELLOW), spiral_to(BLACK), seven_turns(), eight_turns()];
    drawn.into_iter().chain(spirals).collect()
}

/// The long spiral with this colour in its middle.
fn spiral_to(colour: u8) -> Picture {
    let mut picture = long_spiral();
    picture.colours[5 * 8 + 3] = colour;
    picture
}

fn seven_turns() -> Picture {
    let lines = ["r.....", "#####.", "....#.", ".##.#.", ".#r.#.", ".#..#.", ".####.", "......"];
    drawn(1, &lines)
}

fn eight_turns() -> Picture {
    let lines = [
        "r.......", "#######.", "......#.", ".####.#.", ".#.r#.#.", ".#....#.", ".######.",
        "........",
    ];
    drawn(1, &lines)
}

/// Of 8 to 13 turns, to colour, to white and to black.
fn spirals() -> Vec<Picture> {
    (8..=13).flat_map(|turns| [YELLOW, WHITE, BLACK].map(|end| spiral(turns, end))).collect()
}

fn with_long_slide(random: &mut Random) -> Picture {
    loop {
        let picture = random.white_ways(LONGEST);
        let grid = grid(&picture);
        if build(&grid) != build_short(&grid) {
            return picture;
        }
    }
}

/// Each by the second edition and by the first, and a few over a table of the other.
pub fn jobs() -> Vec<Job> {
    let smallest = drawn(1, &["r.##", "#..r", "...#", "##.#"]);
    let twice = drawn(1, &["rr#r", "#...", "...#", "r#.r"]);
    let limits = |picture: &Picture, limits: &[usize]| -> Vec<Question> {
        limits.iter().map(|&limit| question(picture.clone(), limit, b"")).collect()
    };
    let all = [
        limits(&smallest, &[0, 1, 9]),
        limits(&twice, &[1, 9]),
        limits(&long_spiral(), &[1, 9]),
        limits(&spiral_to(BLACK), &[9]),
        limits(&seven_turns(), &[9]),
        limits(&eight_turns(), &[1, 9]),
        runs_by_chance(),
    ];
    let across = [&smallest, &long_spiral(), &eight_turns()].map(|p| question(p.clone(), 9, b""));
    let by = |questions: &[Question], build: u32, run: u32| -> Vec<Job> {
        let editions = Editions { build, run };
        questions.iter().map(|question| Job { editions, question: question.clone() }).collect()
    };
    let all = all.concat();
    [by(&all, PAGE, PAGE), by(&all, RUST, RUST), by(&across, RUST, PAGE), by(&across, PAGE, RUST)]
        .into_iter()
        .flatten()
        .collect()
}

/// Runs of small pictures that take a long slide after some steps, and that the Rust ends elsewhere.
fn runs_by_chance() -> Vec<Question> {
    let (mut random, mut all) = (Random::seeded(SEED), vec![]);
    while all.len() < RUNS_BY_CHANCE {
        let asked = question(with_long_slide(&mut random), 20, b"5\n-3\nab\n");
        if asked.picture.colours.len() <= MOST_PIXELS && parts_later(&asked) {
            all.push(asked);
        }
    }
    all
}

fn parts_later(asked: &Question) -> bool {
    let end = asked.walked().expect("an entry that is not white");
    let (built, ran) = asked.asked().expect("an entry that is not white");
    // Not by which way: runs that come to the same end are of no use here.
    let ended = |left: Left| (left.numbers, left.stack, left.outputs);
    end.parting.is_some_and(|(steps, what)| steps > 0 && what == Parting::LongSlide)
        && ran.panic.is_none()
        && ended(Left::by_rust(&built, &ran)) != ended(Left::by_page(&end))
}
