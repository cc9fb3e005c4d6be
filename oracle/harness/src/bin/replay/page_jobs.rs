//! The runs by the second edition that are replayed, and those over a table of the other edition.
use crate::jobs::{on_numbers, program, question, INSTRUCTIONS, ROOM};
use crate::page_pictures::{examples, lost_first, lost_later};
use crate::records::Job;
use harness::editions::{Editions, PAGE, RUST};
use harness::machine::Room;
use harness::paint::{ops, row, row_over_white};
use harness::question::Question;
use harness::random::Random;
use piet_core::instruction::Instruction::{self, *};

const SEED: u64 = 14;
const BY_CHANCE: usize = 20;
const LONGEST: u32 = 5;

pub fn jobs() -> Vec<Job> {
    let mut random = Random::seeded(SEED);
    let mut all = [lost_slides(), examples_on_values(), depths(), two_values(), rolls()].concat();
    all.extend([example_lines(), lines(), rooms(), loops()].concat());
    all.extend((0..BY_CHANCE).map(|_| by_chance(&mut random)));
    let of_page = |question| Job { editions: Editions { build: PAGE, run: PAGE }, question };
    all.into_iter().map(of_page).chain(across()).collect()
}

/// Runs that reach a lost slide, at once or later, and that are stopped before it.
fn lost_slides() -> Vec<Question> {
    let pictures = [examples(), lost_first(), lost_later()].concat();
    pictures.iter().flat_map(|p| [0, 1, 9].map(|limit| question(p.clone(), limit, b""))).collect()
}

/// The examples of the second edition: operands that stay, the sign of Mod.
fn examples_on_values() -> Vec<Question> {
    const MODULO: [[i64; 2]; 8] = [
        [7, -3],
        [-7, -3],
        [-7, 3],
        [6, -3],
        [5, i64::MIN],
        [-5, i64::MIN],
        [i64::MIN, i64::MIN],
        [i64::MAX, i64::MIN],
    ];
    let mut all: Vec<Question> = [Div, Mod].map(|i| on_numbers(&[9, 7, 0], &[i], 0)).into();
    let depths = [-1, 3, 0, 2];
    all.extend(depths.map(|n| on_numbers(&[5, 6, n, 1], &[Roll], 0)));
    all.extend(MODULO.map(|pair| on_numbers(&pair, &[Mod], 0)));
    all
}

/// Each instruction over three values, and those that differ over fewer.
fn depths() -> Vec<Question> {
    let values = [(Push, 4), (Push, 2), (Push, 3)];
    let over = |depth: usize, i: Instruction| {
        program(&[&values[3 - depth..], &[(i, 5)]].concat(), 1, b"65\n")
    };
    let fewer = (0..3).flat_map(|depth| [Div, Mod, Roll, CharIn].map(|i| over(depth, i)));
    INSTRUCTIONS.map(|i| over(3, i)).into_iter().chain(fewer).collect()
}

fn two_values() -> Vec<Question> {
    const CORNERS: [i64; 7] = [i64::MIN, -7, -1, 0, 1, 3, i64::MAX];
    let pairs = CORNERS.iter().flat_map(|&b| CORNERS.map(|a| [b, a]));
    pairs.flat_map(|pair| [Div, Mod].map(|i| on_numbers(&pair, &[i], 0))).collect()
}

/// Depths that roll, 0, and those that do not, which leave the stack.
fn rolls() -> Vec<Question> {
    let depths = [i64::MIN, -1, 0, 1, 2, 3, 4, i64::MAX];
    let rolled = |n: i64, a: i64| on_numbers(&[5, 6, 7, n, a], &[Roll], 0);
    let mut all: Vec<Question> =
        depths.iter().flat_map(|&n| [i64::MIN, -1, 0, 2].map(|a| rolled(n, a))).collect();
    all.extend([[0, 1], [1, 1], [-1, 0]].map(|pair| on_numbers(&pair, &[Roll], 0)));
    all
}

/// The lines of the examples, with the instructions that read them there.
fn example_lines() -> Vec<Question> {
    let programs: [(&[Instruction], &[u8]); 6] = [
        (&[CharIn, CharIn], b"ab\ncd\n"),
        (&[CharIn, IntIn], b"a12\n3"),
        (&[CharIn, IntIn, IntIn], b"5\n6\n"),
        (&[CharIn], b"a\xFF\n"),
        (&[CharIn, CharIn, CharIn], b"a\n\xFF"),
        (&[CharIn, IntIn], b"a\n\xFF"),
    ];
    programs.map(|(instructions, input)| program(&ops(instructions), 0, input)).into()
}

/// Lines that CharIn and IntIn share.
fn lines() -> Vec<Question> {
    let inputs: [&[u8]; 20] = [
        b"ab\ncd\n",
        b"a12\n3",
        b"5\n6\n",
        b"a\xFF\n",
        b"a\n\xFF",
        b"",
        b"\n",
        b"a\r\n",
        b"\r\n5\n",
        b"7\nab\n12\n",
        b"\xE2\x82\xAC1\n2",
        b"\xF0\x9F\x98\x80\xC3\xA9\n-3\n",
        b"5 6\n7\n",
        b"a99999999999999999999\n5\n",
        b"a-\n\n",
        b"12",
        b"ab\xC3\n",
        b"5\n\xE2\x82\n",
        b"a\nb\xFF\n",
        b"\xE3\x80\x808\xE3\x80\x80\n",
    ];
    let readers = [
        [CharIn, CharIn, CharIn, CharIn],
        [CharIn, IntIn, CharIn, IntIn],
        [IntIn, CharIn, CharIn, IntIn],
    ];
    inputs.iter().flat_map(|input| readers.map(|r| program(&ops(&r), 0, input))).collect()
}

/// CharIn at a full stack, where a bad line comes first, and in abstract mode.
fn rooms() -> Vec<Question> {
    let programs: [(&[Instruction], &[u8]); 5] = [
        (&[CharIn], b"a\n"),
        (&[CharIn], b"a\xFF\n"),
        (&[CharIn, CharIn, IntIn], b"ab\n"),
        (&[CharIn, IntIn, CharIn], b"a\n\xC3\xA9\n"),
        (&[CharIn, CharOut, CharIn, IntOut], b"ab"),
    ];
    let mut all = vec![];
    for (instructions, input) in programs {
        let question = program(&ops(instructions), 0, input);
        for (stack, outputs) in [(0, 0), (1, 1), (2, 0)] {
            all.push(Question { room: Room { stack, outputs }, ..question.clone() });
        }
        all.push(Question { is_abstract: true, ..question });
    }
    all
}

/// Round and round: reading on to the end of the input, and turning by what Mod leaves.
fn loops() -> Vec<Question> {
    let reading = [(CharIn, 1), (Dup, 1), (CharOut, 1), (IntIn, 1), (Push, 1), (Ptr, 1)];
    let turning = [(IntIn, 1), (Push, 2), (Mod, 1), (Ptr, 1), (Push, 1), (Ptr, 1)];
    let again =
        |program: &[_], limit| question(row_over_white(program), limit, b"a1\nb\n-3\n\n5\n");
    [20, 60].iter().flat_map(|&limit| [again(&reading, limit), again(&turning, limit)]).collect()
}

fn by_chance(random: &mut Random) -> Question {
    let picture = match random.below(3) {
        0 => row_over_white(&random.program()),
        _ => random.pale_picture(LONGEST),
    };
    // A run needs an entry that is not white.
    let colours = picture.colours.iter().enumerate();
    let colours = colours.map(|(at, &c)| if at == 0 { c.min(18) } else { c }).collect();
    Question {
        picture: harness::picture::Picture { colours, ..picture },
        limit: random.below(61) as u64,
        is_abstract: random.one_in(8),
        room: Room { stack: random.below(12) as usize, outputs: random.below(6) as usize },
        input: random.shared_lines(),
    }
}

/// Tables of one edition under the other: a run in the first refuses a lost slide, reached or not, and does the first's
/// instructions; one in the second does the second's, whatever the table.
fn across() -> Vec<Job> {
    let mut questions: Vec<Question> = [examples(), lost_later()]
        .concat()
        .into_iter()
        .map(|picture| question(picture, 9, b""))
        .collect();
    questions.push(Question { room: ROOM, ..question(row(&[(Push, 2), (Dup, 1)]), 5, b"") });
    questions.extend([
        program(&ops(&[CharIn, CharIn]), 0, b"ab\ncd\n"),
        program(&ops(&[CharIn, IntIn]), 0, b"a12\n3"),
        on_numbers(&[9, 7, 0], &[Div], 0),
        on_numbers(&[7, -3], &[Mod], 0),
        on_numbers(&[5, 6, -1, 1], &[Roll], 0),
    ]);
    let editions = [(RUST, PAGE), (PAGE, RUST)].map(|(build, run)| Editions { build, run });
    let under =
        |question: Question| editions.map(|editions| Job { editions, question: question.clone() });
    questions.into_iter().flat_map(under).collect()
}
