//! Roll over many values: runs that read values, a depth and a count by chance, and roll.
use crate::cases::{check, Checked};
use crate::running::Running;
use harness::machine::Room;
use harness::paint::{ops, row};
use harness::question::Question;
use harness::random::Random;
use piet_core::instruction::Instruction::{IntIn, Roll};

const SEED: u64 = 12;
const BY_CHANCE: usize = 50_000;
const MOST: u32 = 250;

pub fn compare() -> Checked {
    let mut random = Random::seeded(SEED);
    check("roll", (0..BY_CHANCE).map(|_| Running::plain(by_chance(&mut random))))
}

/// The values are 1, 2 and so on, so that each is seen where it goes.
fn by_chance(random: &mut Random) -> Question {
    let values = random.below(MOST + 1);
    let depth = depth(random, values as i64);
    let numbers: Vec<i64> = (1..=values as i64).chain([depth, count(random, depth)]).collect();
    let program = ops(&[vec![IntIn; numbers.len()], vec![Roll]].concat());
    Question {
        picture: row(&program),
        limit: program.len() as u64,
        is_abstract: false,
        room: Room { stack: numbers.len() + random.below(3) as usize, outputs: 0 },
        input: numbers.iter().flat_map(|n| format!("{n}\n").into_bytes()).collect(),
    }
}

/// Mostly one that rolls: from 1 to the count of values.
fn depth(random: &mut Random, values: i64) -> i64 {
    match random.below(8) {
        0 => random.pick(&[i64::MIN, -values, -1, 0, values + 1, values + 2, i64::MAX]),
        1 => values,
        _ => 1 + random.below(values.max(1) as u32) as i64,
    }
}

/// About none, half, all and three times the depth, to either side; at the ends of the range; or any.
fn count(random: &mut Random, depth: i64) -> i64 {
    let about = random.pick(&[0, depth, depth / 2, 3_i64.wrapping_mul(depth)]);
    let near = about.wrapping_add(random.below(5) as i64 - 2);
    let ends = [i64::MIN, i64::MIN + 1, i64::MAX - 1, i64::MAX];
    match random.below(4) {
        0 => random.pick(&ends),
        1 => random.next() as i64,
        2 => near,
        _ => near.wrapping_neg(),
    }
}
