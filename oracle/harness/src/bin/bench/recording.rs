//! Runs with their exits kept, all of them or the first ones, beside the same runs without.
use crate::inputs::programs;
use crate::running::{space, table, STEPS};
use crate::timing::fastest_by_turns;
use harness::editions::RUST;
use harness::library::{self, Recording, RUN_ANSWER};
use harness::machine::Terms;
use harness::picture::{build, Picture};

const FIRST: usize = 1_000;

pub fn measure() {
    let (all, first) = ("all exits", "first 1,000");
    println!("{:44}{:>14}{all:>14}{first:>14}{:>10}{:>10}", "", "piet_run", "time", "time");
    for (name, picture) in programs() {
        history(name, &picture);
    }
}

fn history(name: &str, picture: &Picture) {
    let terms = Terms { limit: STEPS, is_abstract: false, input: b"" };
    let table = table(&build(picture));
    let (mut ran, mut answer) = (space(), [0; RUN_ANSWER]);
    let [mut all, mut first] =
        [STEPS as usize, FIRST].map(|cells| Recording { space: space(), taken: vec![0; cells] });
    let mut answers = [[0; RUN_ANSWER]; 2];
    let [of_all, of_first] = &mut answers;
    let times = fastest_by_turns([
        &mut || assert_eq!(library::run(&table, RUST, &terms, &mut ran, &mut answer), 0),
        &mut || assert_eq!(library::history(&table, RUST, &terms, &mut all, of_all), 0),
        &mut || assert_eq!(library::history(&table, RUST, &terms, &mut first, of_first), 0),
    ]);
    assert_eq!(answer[..2], [2, STEPS], "the run goes on to its limit");
    assert_eq!(answers, [answer; 2], "it is the same run");
    assert!(!all.taken.contains(&0), "each step has its exit");
    assert_eq!(all.taken[..FIRST], first.taken, "the first exits are the same");
    let [run, all, first] = times.map(|seconds| STEPS as f64 / 1e6 / seconds);
    let name = format!("history, {name}, million steps/s");
    let ratios = [all, first].map(|rate| run / rate);
    println!("{name:44}{run:>14.3}{all:>14.3}{first:>14.3}{:>10.2}{:>10.2}", ratios[0], ratios[1]);
}
