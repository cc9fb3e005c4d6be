//! One Roll, deep in the stack, by 1 and by half of the values that it turns.
use crate::inputs::rolls;
use crate::running::table;
use crate::timing::{both, fastest, line};
use harness::editions::RUST;
use harness::library::{self, Space, Table, RUN_ANSWER};
use harness::machine::{self, interpreter, Terms};
use harness::paint::{row_over_white, Op};
use harness::picture::build;
use piet_core::cfg::CFG;
use piet_core::instruction::Instruction::Roll;

/// Each depth by two factors of its half, since Push pushes a block's size.
const DEPTHS: [[usize; 2]; 2] = [[25, 4], [229, 131]];
/// How many are timed together.
const ROLLS: usize = 200;

pub fn measure() {
    for factors in DEPTHS {
        let half = factors[0] * factors[1];
        let depth = 2 * half;
        let [by_one, by_half] = rolls(factors);
        let costs = [(1, by_one), (half, by_half)].map(|(by, program)| {
            let costs = [rust(depth, by), ours(depth, &program)];
            let name = format!("roll, {depth} deep by {by}");
            line(&name, "ns/Roll", costs.map(|seconds| 1e9 * seconds), costs[0] / costs[1]);
            costs
        });
        let growth = [0, 1].map(|who| costs[1][who] / costs[0][who]);
        both(&format!("roll, {depth} deep, by half / by 1"), growth);
    }
}

/// Seconds of the Rust's instruction and of putting on the two values that it takes: the Roll before it leaves its stack no
/// room, so that it grows each time.
fn rust(depth: usize, by: usize) -> f64 {
    let cfg = CFG::new();
    let mut machine = interpreter(&cfg, &terms(0));
    machine.open_state().stack = (0..depth as i64).collect();
    let seconds = fastest(|| {
        for _ in 0..ROLLS {
            let stack = &mut machine.open_state().stack;
            stack.push_front(depth as i64);
            stack.push_front(by as i64);
            assert!(machine.exec_instr(Roll).is_ok(), "it rolls");
        }
    });
    seconds / ROLLS as f64
}

/// Seconds of ours, which only a run reaches: what a round that rolls takes more than one for which the stack is not deep
/// enough yet. Putting the two values on and taking them off is in both.
fn ours(depth: usize, program: &[Op]) -> f64 {
    let built = build(&row_over_white(program));
    let table = table(&built);
    // A round is a step for each instruction, and the slide back.
    let limit = |rounds: usize| (rounds * (program.len() + 1)) as u64;
    let (shallow, deep) = (depth - 1, depth - 1 + ROLLS);
    let [before, after] = [shallow, deep].map(|rounds| timed(&table, limit(rounds), rounds));
    let mut expected = machine::run(&built.cfg, &terms(limit(deep))).expect("no panic").stack;
    expected.reverse();
    assert_eq!(after.1, expected, "the Rust leaves the same values");
    (after.0 - before.0) / ROLLS as f64 - before.0 / shallow as f64
}

/// Seconds of a run, and the values that it leaves, one a round.
fn timed(table: &Table, limit: u64, rounds: usize) -> (f64, Vec<i64>) {
    // Within a round there are at most three values more than after it.
    let mut space = Space { stack: vec![0; rounds + 3], kinds: vec![], values: vec![] };
    let mut answer = [0; RUN_ANSWER];
    let seconds = fastest(|| {
        assert_eq!(library::run(table, RUST, &terms(limit), &mut space, &mut answer), 0);
    });
    assert_eq!([answer[1], answer[5]], [limit, rounds as u64], "each round leaves a value");
    space.stack.truncate(rounds);
    (seconds, space.stack)
}

fn terms(limit: u64) -> Terms<'static> {
    Terms { limit, is_abstract: false, input: b"" }
}
