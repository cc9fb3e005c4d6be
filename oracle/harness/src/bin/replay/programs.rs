//! The run program's jobs that are replayed: those of the run questions, and jobs that are refused.
use crate::jobs;
use harness::job::{job, Done, Ran};
use harness::machine::{Judged, Room};
use harness::numbers::palette;
use harness::paint::row_over_white;
use harness::picture::Picture;
use harness::question::Question;
use piet_core::instruction::Instruction::{IntOut, Ptr, Push};

/// A job: its sides and codel width, its pixels, its limit and mode, its input.
struct Job {
    sides: [u16; 3],
    pixels: Vec<u8>,
    limit: u64,
    mode: u8,
    input: Vec<u8>,
}

pub fn records() -> Vec<u8> {
    listed(&all())
}

/// Each job after its length in two bytes.
pub fn listed(jobs: &[Vec<u8>]) -> Vec<u8> {
    jobs.iter().flat_map(|job| [&(job.len() as u16).to_le_bytes(), &job[..]].concat()).collect()
}

pub fn read(bytes: &[u8]) -> Result<Vec<&[u8]>, String> {
    let (mut rest, mut all) = (bytes, vec![]);
    while !rest.is_empty() {
        let (job, after) = first(rest).ok_or(format!("record {} is cut", all.len()))?;
        all.push(job);
        rest = after;
    }
    Ok(all)
}

fn first(bytes: &[u8]) -> Option<(&[u8], &[u8])> {
    let (length, rest) = bytes.split_first_chunk::<2>()?;
    rest.split_at_checked(u16::from_le_bytes(*length) as usize)
}

/// What the run program prints, and a line that ends it.
pub fn printed(bytes: &[u8]) -> Result<String, String> {
    let text = match done(bytes)? {
        Done::Refused(number) => refused(number),
        Done::Ran(ran) => ran.judged.answer.to_string(),
    };
    Ok(text + "--\n")
}

/// What becomes of a job that the Rust answers or the rules refuse.
pub fn done(bytes: &[u8]) -> Result<Done, String> {
    match job(bytes) {
        Some(Done::Ran(Ran { judged: Judged { panic: Some(text), .. }, .. })) => {
            Err(format!("the Rust panics: {text}"))
        }
        Some(done) => Ok(done),
        None => Ok(Done::Refused(refusal(bytes))),
    }
}

pub fn refused(number: u32) -> String {
    format!("refused {number}\n")
}

/// The number of a job that is refused before the Rust is reached: this is the rules' alone.
fn refusal(bytes: &[u8]) -> u32 {
    let Some(job) = opened(bytes) else {
        return 11;
    };
    let [height, width, _] = job.sides.map(usize::from);
    let sides = 1..=1_024;
    if !sides.contains(&height) || !sides.contains(&width) {
        1
    } else if job.pixels.len() != 3 * height * width {
        2
    } else if height * width > 512 {
        4
    } else {
        6
    }
}

/// The job that these bytes are, if they are what it is written as.
fn opened(bytes: &[u8]) -> Option<Job> {
    let length = |at: usize| Some(u32::from_le_bytes(*bytes.get(at..)?.first_chunk()?) as usize);
    let body = length(0)?;
    let number = |at: usize| Some(u16::from_le_bytes(*bytes.get(at..)?.first_chunk()?));
    let sides = [number(6)?, number(8)?, number(10)?];
    let (pixels, at) = (bytes.get(12..6 + body)?.to_vec(), 6 + body);
    let limit = u64::from_le_bytes(*bytes.get(at + 6..)?.first_chunk()?);
    let mode = *bytes.get(at + 14)?;
    let input = bytes.get(at + 21..)?.to_vec();
    let job = Job { sides, pixels, limit, mode, input };
    (mode < 2 && bytes.len() <= 8_192 && written(&job) == bytes).then_some(job)
}

fn written(job: &Job) -> Vec<u8> {
    let sides = job.sides.map(u16::to_le_bytes);
    let picture = [sides.as_flattened(), &job.pixels].concat();
    let way = [&job.limit.to_le_bytes()[..], &[job.mode]].concat();
    [record(1, &picture), record(2, &way), record(3, &job.input)].concat()
}

fn record(kind: u16, body: &[u8]) -> Vec<u8> {
    [&(body.len() as u32).to_le_bytes()[..], &kind.to_le_bytes(), body].concat()
}

/// Those that the Rust answers or the rules refuse.
fn all() -> Vec<Vec<u8>> {
    let mut all = of_questions(&[jobs::for_the_run_program(), full(&[1_000, 2_000])].concat());
    all.extend(by_sides().iter().map(written));
    all.extend(cut_and_changed());
    all.retain(|job| printed(job).is_ok());
    all
}

/// Two that are refused by each number.
pub fn refused_by_each() -> Vec<Vec<u8>> {
    let odd = [by_sides().iter().map(written).collect(), cut_and_changed()].concat();
    let number_of = |job: &Vec<u8>| match done(job) {
        Ok(Done::Refused(number)) => Some(number),
        _ => None,
    };
    let with_numbers: Vec<(Option<u32>, Vec<u8>)> =
        odd.into_iter().map(|job| (number_of(&job), job)).collect();
    let by = |number: u32| with_numbers.iter().filter(move |(n, _)| *n == Some(number)).take(2);
    [11, 1, 2, 4, 5, 6, 9].into_iter().flat_map(by).map(|(_, job)| job.clone()).collect()
}

/// The jobs that ask for these runs, in the run program's room.
pub fn of_questions(questions: &[Question]) -> Vec<Vec<u8>> {
    let palette = palette();
    questions.iter().map(|q| written(&asked(q, &palette))).collect()
}

fn asked(q: &Question, palette: &[[u8; 3]]) -> Job {
    let Picture { height, width, codel, colours } = &q.picture;
    let sides = [*height, *width, *codel].map(|n| n as u16);
    let pixels = colours.iter().flat_map(|&c| palette[c as usize]).collect();
    Job { sides, pixels, limit: q.limit, mode: q.is_abstract as u8, input: q.input.clone() }
}

/// Loops that fill the stack and the outputs of the run program.
pub fn full(limits: &[u64]) -> Vec<Question> {
    let pushing = row_over_white(&[(Push, 2), (Push, 1), (Ptr, 1)]);
    let writing = row_over_white(&[(Push, 1), (IntOut, 1), (Push, 1), (Ptr, 1)]);
    let room = Room { stack: 0, outputs: 0 };
    let question = |picture: &Picture, limit: u64| Question {
        picture: picture.clone(),
        limit,
        is_abstract: false,
        room,
        input: vec![],
    };
    let limited = |picture| limits.iter().map(move |&limit| question(picture, limit));
    [&pushing, &writing].into_iter().flat_map(limited).collect()
}

/// The example of the rules.
fn example() -> Job {
    let pixels = vec![0xFF, 0xC0, 0xC0, 0xFF, 0, 0];
    Job { sides: [1, 2, 1], pixels, limit: 3, mode: 0, input: vec![] }
}

/// Sides and codel widths at their bounds, with the right count of pixels and with others; unknown and white pixels.
fn by_sides() -> Vec<Job> {
    let sides: [[u16; 3]; 14] = [
        [0, 2, 1],
        [2, 0, 1],
        [1_025, 1, 1],
        [1, 1_025, 1],
        [1, 2, 0],
        [1, 2, 1_025],
        [1, 2, 1_024],
        [1, 512, 1],
        [1, 513, 1],
        [32, 16, 3],
        [512, 1, 7],
        [27, 19, 2],
        [1, 2, 65_535],
        [65_535, 65_535, 1],
    ];
    let filled = |sides: [u16; 3], pixel: [u8; 3]| {
        let count = (sides[0] as usize * sides[1] as usize).min(2_600);
        Job { sides, pixels: pixel.repeat(count), ..example() }
    };
    let pixels = [[0xFF, 0, 0], [0xFF, 0xFF, 0xFF], [0, 0, 0], [1, 2, 3]];
    let mut all: Vec<Job> = sides.iter().flat_map(|&s| pixels.map(|p| filled(s, p))).collect();
    all.extend(sides.map(|sides| Job { sides, ..example() }));
    all.extend((0..12).map(|at| Job { pixels: unknown(at), sides: [2, 2, 2], ..example() }));
    all
}

/// Four pixels, one byte of which makes a pixel that is not in the table.
fn unknown(at: usize) -> Vec<u8> {
    let mut pixels = [0xFF, 0, 0].repeat(4);
    pixels[at] ^= 1;
    pixels
}

/// The example cut at every byte, with every byte changed but those that would make its limit large, and with
/// something after it.
fn cut_and_changed() -> Vec<Vec<u8>> {
    let whole = written(&Job { input: b"5\n".to_vec(), ..example() });
    let mut all: Vec<Vec<u8>> = (0..whole.len()).map(|end| whole[..end].to_vec()).collect();
    let large = 25..32;
    for at in (0..whole.len()).filter(|at| !large.contains(at)) {
        for change in [1, 2, 0x80] {
            let mut other = whole.clone();
            other[at] ^= change;
            all.push(other);
        }
    }
    all.push([&whole[..], &[0]].concat());
    all.push([&whole[..], &whole].concat());
    let input = |bytes: usize| Job { input: b"7\n".repeat(bytes), ..example() };
    all.extend([4_070, 4_076, 4_077, 4_100].map(|bytes| written(&input(bytes))));
    all
}
