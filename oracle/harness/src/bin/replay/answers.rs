//! The lines of tables and runs: words with one space between them.
use crate::records::{Asked, Job};
use harness::editions::{self, Editions, Left, PAGE, RUST};
use harness::picture::Built;
use harness::question::Question;
use harness::visits::Visits;
use std::fmt::Display;
use std::iter::zip;

pub fn table(asked: &Asked) -> String {
    let Some(built) = editions::table(&asked.picture, asked.edition) else {
        return refused(9);
    };
    let (rows, exits) = (built.rows.as_flattened(), built.exits.as_flattened());
    sections([&[built.rows.len() as u32], &built.map, rows, exits])
}

fn refused(number: u32) -> String {
    format!("refused {number}\n")
}

/// A run in the second edition is the model's, over the table of either. One in the first is the Rust's, over a table of the
/// second too where it is the Rust's own; where it has a long slide and no lost one, nothing else may tell the editions
/// apart, and the model's run is that of both.
pub fn run(job: &Job) -> Result<String, String> {
    let Job { editions: Editions { build, run }, question } = job;
    let table = |edition: u32| editions::table(&question.picture, edition);
    let built = table(*build).ok_or("a first pixel is white")?;
    if *run == PAGE {
        return Ok(run_lines(&built, &Left::by_page(&built.run_by_page(question))));
    }
    if built.has_lost() {
        return Ok(refused(10));
    }
    if table(RUST).is_some_and(|own| own.rows == built.rows && own.exits == built.exits) {
        return run_by_rust(question);
    }
    match built.run_by_both(question) {
        (end, limit) if limit == question.limit => Ok(run_lines(&built, &Left::by_page(&end))),
        _ => Err("nobody runs on in the first edition, after what it does otherwise".into()),
    }
}

/// The Rust has to have an answer, if need be to the same question by the residue.
fn run_by_rust(question: &Question) -> Result<String, String> {
    let (built, judged) = question.asked().ok_or("a first pixel is white")?;
    match (&judged.panic, by_residue(question)) {
        (None, _) => Ok(run_lines(&built, &Left::by_rust(&built, &judged))),
        (Some(_), Some(question)) => run_by_rust(&question),
        (Some(text), None) => Err(format!("the Rust panics: {text}")),
    }
}

/// Where an input ends with a depth and -2^63, the same with the residue in its place, which the rules choose for Roll
/// (9.8). Zeros stand before it, so that as many bytes are used.
fn by_residue(question: &Question) -> Option<Question> {
    let text = str::from_utf8(&question.input).ok()?;
    let (before, count) = text.strip_suffix('\n')?.rsplit_once('\n')?;
    let depth: i64 = before.rsplit('\n').next()?.parse().ok()?;
    let residue = i64::MIN.checked_rem_euclid(depth).filter(|_| count == i64::MIN.to_string())?;
    let input = format!("{before}\n{residue:0width$}\n", width = count.len()).into_bytes();
    Some(Question { input, ..question.clone() })
}

/// What the run leaves, how often it entered each region of its table, and the exits that it took.
fn run_lines(built: &Built, left: &Left) -> String {
    let visits = Visits::of(&left.entered, &built.marks());
    run_line(left) + &visits_line(&visits) + &history_line(&left.taken)
}

/// The first exits, in cells that held one to a region that no table here has.
fn history_line(taken: &[u32]) -> String {
    let mut cells = [9_999; 12];
    zip(&mut cells, taken).for_each(|(cell, &exit)| *cell = exit);
    "history ".to_string() + &sections([&cells])
}

fn visits_line(visits: &Visits) -> String {
    let nodes: Vec<u64> = visits.unvisited.iter().map(|&node| node.into()).collect();
    "visits ".to_string() + &sections([&[nodes.len() as u64], &visits.counts, &nodes])
}

fn run_line(left: &Left) -> String {
    let numbers = left.numbers.map(|n| n as i64);
    let top_first: Vec<i64> = left.stack.iter().rev().copied().collect();
    let pairs: Vec<[i64; 2]> =
        left.outputs.iter().map(|&(kind, value)| [kind.into(), value]).collect();
    sections([&numbers[..], &top_first, pairs.as_flattened()])
}

/// A line with a colon between two lists of numbers, each of which may be empty.
fn sections<N: Display, const COUNT: usize>(lists: [&[N]; COUNT]) -> String {
    let words = |list: &[N]| -> Vec<String> { list.iter().map(N::to_string).collect() };
    lists.map(words).join(&":".to_string()).join(" ") + "\n"
}
