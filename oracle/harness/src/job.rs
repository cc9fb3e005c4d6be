//! The run program's jobs, as far as the Rust has a say in them.
use crate::machine::{run_watched, Answer, Judged, Room, Terms};
use crate::numbers::classify;
use crate::picture::{build, Built, Picture};
use crate::trace;

pub enum Done {
    Refused(u32),
    Ran(Ran),
}

/// A job's run, with what is told of it.
pub struct Ran {
    /// codels in a row
    pub columns: usize,
    pub limit: u64,
    pub built: Built,
    pub judged: Judged,
    /// what the machine held before the first step and after each that has a line in a trace: stack, pointers and outputs
    pub held: Vec<Answer>,
}

/// The room that the rules give the run program.
const ROOM: Room = Room { stack: 256, outputs: 256 };
const PIXELS: u32 = 512;
const JOB: usize = 8_192;
/// Its setting for unknown pixels.
const REFUSE_UNKNOWN: u8 = 1;

struct Job<'a> {
    height: u32,
    width: u32,
    codel: u32,
    pixels: &'a [u8],
    terms: Terms<'a>,
}

/// None where the job is refused before the Rust is reached, with 11, 1, 2, 4 or 6.
pub fn job(bytes: &[u8]) -> Option<Done> {
    let job = read(bytes)?;
    let size = job.height * job.width;
    let sides = 1..=1_024;
    if !sides.contains(&job.height) || !sides.contains(&job.width) {
        return None;
    }
    if job.pixels.len() as u32 != 3 * size || size > PIXELS {
        return None;
    }
    let classified = job.pixels.chunks(3).map(|p| classify([p[0], p[1], p[2]], REFUSE_UNKNOWN));
    let Ok(colours) = classified.collect::<Result<Vec<u8>, String>>() else {
        return Some(Done::Refused(5));
    };
    if !sides.contains(&job.codel) {
        return None;
    }
    let Job { height, width, codel, terms, .. } = job;
    let built = build(&Picture { height, width, codel, colours });
    if built.refused_white() {
        return Some(Done::Refused(9));
    }
    Some(Done::Ran(Ran::of(built, width.div_ceil(codel) as usize, &terms)))
}

impl Ran {
    /// Needs an entry.
    pub fn of(built: Built, columns: usize, terms: &Terms) -> Ran {
        let mut held = vec![];
        let judged = run_watched(&built.cfg, terms, &ROOM, |state| {
            if held.len() <= trace::MOST {
                held.push(Answer::of(state.clone(), 0));
            }
        });
        Ran { columns, limit: terms.limit, built, judged, held }
    }
}

fn read(bytes: &[u8]) -> Option<Job<'_>> {
    if bytes.len() > JOB {
        return None;
    }
    let (picture, rest) = record(1, bytes)?;
    let (way, rest) = record(2, rest)?;
    let (input, rest) = record(3, rest)?;
    let (sides, pixels) = picture.split_at_checked(6)?;
    let (limit, mode) = way.split_at_checked(8)?;
    let is_abstract = match (mode, rest) {
        ([0], []) => false,
        ([1], []) => true,
        _ => return None,
    };
    let side = |i: usize| u16::from_le_bytes([sides[i], sides[i + 1]]) as u32;
    let limit = u64::from_le_bytes(limit.try_into().ok()?);
    let terms = Terms { limit, is_abstract, input };
    Some(Job { height: side(0), width: side(2), codel: side(4), pixels, terms })
}

/// The body of the first record, which has to be of this kind, and what follows it.
fn record(kind: u16, bytes: &[u8]) -> Option<(&[u8], &[u8])> {
    let (length, rest) = bytes.split_first_chunk::<4>()?;
    let (kind_bytes, rest) = rest.split_first_chunk::<2>()?;
    let whole = u16::from_le_bytes(*kind_bytes) == kind;
    whole.then(|| rest.split_at_checked(u32::from_le_bytes(*length) as usize))?
}
