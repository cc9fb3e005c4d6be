//! Jobs that are traced: chosen so that each form of a line occurs, and by chance.
use crate::jobs::{self, on_numbers, program, question};
use crate::programs::{self, done, of_questions};
use crate::skipping;
use crate::traces::traced;
use harness::job::Done;
use harness::paint::{drawn, ops, row, row_over_white, Op};
use harness::picture::Picture;
use harness::question::Question;
use harness::random::Random;
use piet_core::instruction::Instruction::{self, *};

const SEED: u64 = 23;
const BY_CHANCE: usize = 60;
const LONGEST: u32 = 8;
const LONGEST_WAY: u32 = 12;
/// Nearly as many pixels as a job may have.
const WHOLE: u32 = 22;
/// A run that goes on after so many steps may go on for ever.
const ENOUGH: u64 = 4_000;

/// Those that the Rust answers or the rules refuse.
pub fn chosen() -> Vec<Vec<u8>> {
    let questions = [
        jobs::depths(),
        jobs::one_value(),
        jobs::needs_input(),
        jobs::loops(),
        skipping::jobs(),
        characters(),
        stacks(),
        lengths(),
        widths(),
        ended(),
        programs::full(&[2_000]),
    ];
    let mut all = of_questions(&questions.concat());
    all.extend(programs::refused_by_each());
    let short = by_chance(SEED, 2 * BY_CHANCE).into_iter().filter(|job| is_short(job));
    all.extend(short.take(BY_CHANCE));
    all.retain(|job| done(job).is_ok());
    all
}

/// So that what is stored is not mostly that of a few large pictures and long runs.
fn is_short(job: &[u8]) -> bool {
    job.len() < 400 && traced(job).is_ok_and(|text| text.len() < 3_000)
}

/// Characters at the bounds of their lengths in UTF-8 and of what is shown by its number; an output that could be taken for the end
/// of a trace.
fn characters() -> Vec<Question> {
    const BOUNDS: [i64; 24] = [
        0, 9, 10, 31, 32, 39, 65, 92, 126, 127, 128, 159, 160, 0x7FF, 0x800, 0x2028, 0xD7FF,
        0xE000, 0xFEFF, 0xFFFF, 0x1_0000, 0x1_F600, 0x10_FFFE, 0x10_FFFF,
    ];
    let written = |numbers: &[i64]| on_numbers(numbers, &vec![CharOut; numbers.len()], 0);
    let all = BOUNDS.chunks(4).map(written);
    all.chain([written(&[10, 45, 45, 10]), written(&[0x20AC, 65, 0x1_F600, 0xE9])]).collect()
}

/// Stacks about as high as is shown, of small values and of the longest, with outputs among them.
fn stacks() -> Vec<Question> {
    let mut all = vec![];
    for count in [7, 8, 9, 10, 20] {
        let then = [Dup, Pop, Add, IntOut, Gt, Not, CharOut];
        all.push(on_numbers(&(1..=count).collect::<Vec<i64>>(), &then, 0));
        all.push(on_numbers(&vec![i64::MIN; count as usize], &then, 0));
    }
    all.push(on_numbers(&[1, 2, 3, 4, 5, 6, 7, 8, 9, 10, 11, 9, 4], &[Roll, Pop], 0));
    all
}

/// As many moves as have a line, one fewer and one more, and many more.
fn lengths() -> Vec<Question> {
    let two = drawn(1, &["Rr"]);
    [999, 1_000, 1_001, 100_000].map(|limit| question(two.clone(), limit, b"")).into()
}

/// Codels of several pixels, in sides that they divide and in sides that they do not.
fn widths() -> Vec<Question> {
    let back = row_over_white(&[(Push, 2), (Dup, 1), (IntOut, 1), (Push, 1), (Ptr, 1)]);
    let mut all = vec![];
    for codel in [2, 3] {
        all.push(question(widened(&back, codel), 40, b""));
        all.push(question(Picture { codel, ..back.clone() }, 9, b""));
        all.push(question(Picture { codel, ..drawn(1, &["rrR", "rrR", "bbg"]) }, 9, b""));
    }
    all.push(question(drawn(1_024, &["rR"]), 9, b""));
    all
}

/// The same picture in codels of this width.
fn widened(picture: &Picture, codel: u32) -> Picture {
    let width = codel as usize;
    let wide = |row: &[u8]| row.iter().flat_map(|&c| vec![c; width]).collect::<Vec<u8>>();
    let rows = picture.colours.chunks(picture.width as usize);
    let colours = rows.flat_map(|row| wide(row).repeat(width)).collect();
    Picture { height: codel * picture.height, width: codel * picture.width, codel, colours }
}

/// Runs that end by themselves, with no step, with the last limit that is counted to and with the one that is not.
fn ended() -> Vec<Question> {
    let reading = |is_abstract: bool| Question { is_abstract, ..program(&[(IntIn, 1)], 0, b"5\n") };
    let runs = [
        question(drawn(1, &["5c", "cc"]), 0, b"7\n"),
        question(drawn(1, &["r"]), 0, b""),
        question(drawn(1, &["#r"]), 0, b""),
        question(drawn(1, &[".r"]), 0, b""),
        reading(true),
        Question { input: b"\xFF\n".to_vec(), ..reading(false) },
    ];
    let limited =
        |q: &Question| [0, u64::MAX - 1, u64::MAX].map(|limit| Question { limit, ..q.clone() });
    runs.iter().flat_map(limited).collect()
}

/// So many jobs that the Rust answers or the rules refuse.
pub fn by_chance(seed: u64, count: usize) -> Vec<Vec<u8>> {
    let mut random = Random::seeded(seed);
    let questions: Vec<Question> = (0..2 * count).map(|_| asked_by_chance(&mut random)).collect();
    let jobs = of_questions(&questions).into_iter().map(|job| altered(&mut random, job));
    jobs.filter(|job| done(job).is_ok()).take(count).collect()
}

fn asked_by_chance(random: &mut Random) -> Question {
    let longest = random.pick(&[LONGEST, LONGEST, WHOLE]);
    let (picture, input) = match random.below(11) {
        0 => (random.picture(longest), random.input()),
        1 => (random.pale_picture(longest), random.input()),
        2 => (random.white_ways(LONGEST_WAY), random.input()),
        3 => (row(&random.program()), random.number_lines()),
        4 => (row_over_white(&random.program()), random.shared_lines()),
        5 => written_by_chance(random),
        6 => long_values(random),
        _ => (round(random), random.input()),
    };
    let most = random.pick(&[4, 60, 60, 400, 400, 2_500]);
    let (limit, is_abstract) = (random.below(most) as usize, random.one_in(12));
    Question { is_abstract, ..question(picture, limit, &input) }
}

/// A loop through white of instructions by chance, most of which leave more on the stack or write.
fn round(random: &mut Random) -> Picture {
    const MORE: [Instruction; 9] = [Push, Push, Push, Dup, Dup, IntIn, IntOut, CharOut, Add];
    let mut program: Vec<Op> = vec![(Push, 1 + random.below(200) as usize)];
    for _ in 0..1 + random.below(8) {
        program.push((random.pick(&MORE), 1 + random.below(5) as usize));
    }
    program.extend([(Push, 1), (Ptr, 1)]);
    row_over_white(&program)
}

/// A loop through white that leaves more and more of the longest values, so that its lines are the longest.
fn long_values(random: &mut Random) -> (Picture, Vec<u8>) {
    let most = vec![Dup; 1 + random.below(3) as usize];
    let program = [&[IntIn][..], &most, &[Push, Ptr]].concat();
    let line = format!("{}\n", i64::MIN);
    (row_over_white(&ops(&program)), line.repeat(1 + random.below(9) as usize).into())
}

/// Values that are read, characters of each length among them, and written after some of them have met.
fn written_by_chance(random: &mut Random) -> (Picture, Vec<u8>) {
    const MEET: [Instruction; 8] = [Add, Sub, Mul, Dup, Roll, Gt, Not, Pop];
    let values: Vec<i64> = (0..1 + random.below(14)).map(|_| value(random)).collect();
    let read = vec![IntIn; values.len()];
    let met: Vec<Instruction> = (0..random.below(4)).map(|_| random.pick(&MEET)).collect();
    let written = values.iter().map(|_| random.pick(&[CharOut, CharOut, IntOut])).collect();
    let picture = row(&ops(&[read, met, written].concat()));
    (picture, values.iter().flat_map(|v| format!("{v}\n").into_bytes()).collect())
}

fn value(random: &mut Random) -> i64 {
    let below = random.pick(&[8, 256, 256, 0x1000, 0x1_0000, 0x11_0000]);
    match random.below(12) {
        0 => random.next() as i64,
        1 => -(random.below(below) as i64),
        _ => random.below(below) as i64,
    }
}

/// Some jobs are cut or have a changed pixel, and some whose run ends by itself have the largest limits.
fn altered(random: &mut Random, mut job: Vec<u8>) -> Vec<u8> {
    match random.below(64) {
        0 => job.truncate(random.below(job.len() as u32) as usize),
        1 => job[12] ^= 1,
        2 => job.push(0),
        3..=5 => {
            let large = limited(&job, u64::MAX - random.below(2) as u64);
            return if ends(&limited(&job, ENOUGH)) { large } else { job };
        }
        _ => (),
    }
    job
}

fn ends(job: &[u8]) -> bool {
    matches!(done(job), Ok(Done::Ran(ran)) if ran.judged.answer.steps < ENOUGH)
}

/// The job with this limit, which stands after the header of the record that follows the picture.
fn limited(job: &[u8], limit: u64) -> Vec<u8> {
    let [a, b, c, d, ..] = *job else { panic!("a job begins with a length") };
    let at = u32::from_le_bytes([a, b, c, d]) as usize + 12;
    [&job[..at], &limit.to_le_bytes(), &job[at + 8..]].concat()
}
