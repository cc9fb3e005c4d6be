//! Runs.
use crate::inputs::programs;
use crate::timing::{fastest, line};
use harness::editions::RUST;
use harness::library::{self, Space, Table, RUN_ANSWER};
use harness::machine::{self, Terms};
use harness::picture::{Built, Picture};

pub const STEPS: u64 = 1_000_000;

pub fn measure() {
    for (name, picture) in programs() {
        run(name, &picture);
    }
}

fn run(name: &str, picture: &Picture) {
    let terms = Terms { limit: STEPS, is_abstract: false, input: b"" };
    let built = harness::picture::build(picture);
    let rust = fastest(|| machine::run(&built.cfg, &terms).expect("no panic").steps);
    let table = table(&built);
    let (mut space, mut answer) = (space(), [0; RUN_ANSWER]);
    let ours = fastest(|| {
        assert_eq!(library::run(&table, RUST, &terms, &mut space, &mut answer), 0);
    });
    assert_eq!(answer[..2], [2, STEPS], "the run goes on to its limit");
    let rates = [rust, ours].map(|seconds| STEPS as f64 / 1e6 / seconds);
    line(&format!("run, {name}"), "million steps/s", rates, rust / ours);
}

/// As little as these runs need.
pub fn space() -> Space {
    Space { stack: vec![0; 64], kinds: vec![0; 64], values: vec![0; 64] }
}

pub fn table(built: &Built) -> Table {
    let (rows, exits) = (built.rows.as_flattened(), built.exits.as_flattened());
    Table { n: built.rows.len(), rows: rows.to_vec(), exits: exits.to_vec() }
}
