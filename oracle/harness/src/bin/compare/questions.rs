//! Questions by chance on what the editions do differently.
use crate::running::{self, entered};
use harness::paint::{row, row_over_white, Op};
use harness::picture::Picture;
use harness::question::Question;
use harness::random::Random;
use piet_core::instruction::Instruction::{self, *};

const LONGEST: u32 = 8;

/// A picture with much white, or a row that does what the editions do differently, with what there is to read.
pub fn question(random: &mut Random) -> Question {
    let (picture, input) = match random.below(5) {
        0 | 1 => (entered(pale(random)), random.shared_lines()),
        2 => {
            let (program, input) = on_corners(random);
            (painted(random, &program), input)
        }
        3 => {
            let program = readers(random);
            (painted(random, &program), random.shared_lines())
        }
        _ => (running::picture(random), random.input()),
    };
    Question { input, ..running::question(random, picture) }
}

pub fn pale(random: &mut Random) -> Picture {
    random.pale_picture(LONGEST)
}

fn painted(random: &mut Random, program: &[Op]) -> Picture {
    if random.one_in(3) {
        row_over_white(program)
    } else {
        row(program)
    }
}

/// Values that are read, small ones and those at the ends of the range, and what meets them.
fn on_corners(random: &mut Random) -> (Vec<Op>, Vec<u8>) {
    const ENDS: [i64; 6] = [i64::MIN, i64::MIN + 1, i64::MIN + 7, -1 << 32, i64::MAX - 1, i64::MAX];
    const MEET: [Instruction; 14] =
        [Div, Div, Div, Mod, Mod, Mod, Roll, Roll, Roll, Add, Sub, Mul, Gt, Dup];
    let value = |random: &mut Random| match random.below(4) {
        0 => random.pick(&ENDS),
        _ => random.below(12) as i64 - 4,
    };
    let values: Vec<i64> = (0..1 + random.below(6)).map(|_| value(random)).collect();
    let meeting = (0..1 + random.below(4)).map(|_| random.pick(&MEET));
    let program = vec![IntIn; values.len()].into_iter().chain(meeting).map(|i| (i, 1)).collect();
    (program, values.iter().flat_map(|v| format!("{v}\n").into_bytes()).collect())
}

/// Up to eight instructions, most of which read.
fn readers(random: &mut Random) -> Vec<Op> {
    const READ: [Instruction; 9] =
        [CharIn, CharIn, CharIn, IntIn, IntIn, IntIn, CharOut, IntOut, Dup];
    (0..1 + random.below(8)).map(|_| (random.pick(&READ), 1)).collect()
}
