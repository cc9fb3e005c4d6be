//! Runs with their visits counted, beside the same runs without.
use crate::inputs::programs;
use crate::running::{space, table, STEPS};
use crate::timing::fastest_by_turns;
use harness::editions::RUST;
use harness::library::{self, Counting, RUN_ANSWER, VISITS_ANSWER};
use harness::machine::Terms;
use harness::picture::{build, Picture};

pub fn measure() {
    println!("{:44}{:>14}{:>14}{:>10}", "", "piet_run", "piet_visits", "time");
    for (name, picture) in programs() {
        visits(name, &picture);
    }
}

fn visits(name: &str, picture: &Picture) {
    let terms = Terms { limit: STEPS, is_abstract: false, input: b"" };
    let table = table(&build(picture));
    let (mut ran, mut answer) = (space(), [0; RUN_ANSWER]);
    let mut lent =
        Counting { space: space(), visits: vec![0; table.n], unvisited: vec![0; table.n] };
    let mut counted = [0; VISITS_ANSWER];
    let [run, visits] = fastest_by_turns([
        &mut || assert_eq!(library::run(&table, RUST, &terms, &mut ran, &mut answer), 0),
        &mut || assert_eq!(library::visits(&table, RUST, &terms, &mut lent, &mut counted), 0),
    ]);
    assert_eq!(answer[..2], [2, STEPS], "the run goes on to its limit");
    assert_eq!(counted[..RUN_ANSWER], answer, "it is the same run");
    assert_eq!(lent.visits.iter().sum::<u64>(), STEPS + 1, "each step and the start count");
    let rates = [run, visits].map(|seconds| STEPS as f64 / 1e6 / seconds);
    let name = format!("visits, {name}, million steps/s");
    println!("{name:44}{:>14.3}{:>14.3}{:>10.2}", rates[0], rates[1], visits / run);
}
