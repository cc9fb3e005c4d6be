//! What the parts share: an outcome as lists of numbers, and the search for a difference.
use harness::editions::{PAGE, RUST};
use std::collections::BTreeMap;
use std::fmt::{Display, Formatter};
use std::iter::{once, successors};
use std::ops::Range;
use std::time::{Duration, Instant};

/// A case that both sides answer.
pub trait Case: Sized {
    /// What is expected, by the Rust or the model or where they have no say by the rules, and what the
    /// archive makes of it.
    fn outcomes(&self) -> [Outcome; 2];
    /// The same case with a little less to it.
    fn smaller(&self) -> impl Iterator<Item = Self>;
    fn shown(&self) -> String;
    /// What cases are counted by: the number returned, unless there is more to say.
    fn kinds(&self, expected: &Outcome) -> Vec<String> {
        vec![expected.number_returned()]
    }
}

/// Cells under the name of their slice.
pub type Named = (&'static str, Vec<i64>);

/// The number returned, the answer cells and every lent cell.
#[derive(Clone, PartialEq, Eq)]
pub struct Outcome(pub Vec<Named>);

impl Outcome {
    pub fn list(&self, name: &str) -> &[i64] {
        let found = self.0.iter().find(|(n, _)| *n == name);
        &found.expect("a list of this name").1
    }

    pub fn number_returned(&self) -> String {
        format!("number {}", self.list("number")[0])
    }

    /// The kinds of a run: where it is not refused its status, and for what reasons lines were skipped.
    pub fn kinds_of_run(&self) -> Vec<String> {
        if self.list("number") != [0] {
            return vec![self.number_returned()];
        }
        let answer = self.list("answer");
        let reasons = REASONS.iter().zip(&answer[8..]).filter(|(_, count)| **count > 0);
        let status = format!("status {}", answer[0]);
        once(status).chain(reasons.map(|(reason, _)| format!("{reason} counted"))).collect()
    }
}

/// Numbers that name no edition; a narrower type would take some of them for one that does.
pub const NO_EDITION: [u32; 8] = [0, 3, 257, 258, 65_537, 65_538, (1 << 31) + 1, u32::MAX];

pub fn is_edition(number: u32) -> bool {
    [RUST, PAGE].contains(&number)
}

/// What the cells of a run's answer from 8 on count.
const REASONS: [&str; 4] = ["ended", "blank", "not_number", "out_of_range"];

/// How many cases there were, and how many of each kind; a case may be of several.
#[derive(Default)]
pub struct Counts {
    cases: u64,
    kinds: BTreeMap<String, u64>,
}

impl Counts {
    fn of_one(kinds: Vec<String>) -> Counts {
        Counts { cases: 1, kinds: kinds.into_iter().map(|kind| (kind, 1)).collect() }
    }

    pub fn and(mut self, other: Counts) -> Counts {
        self.cases += other.cases;
        for (kind, count) in other.kinds {
            *self.kinds.entry(kind).or_default() += count;
        }
        self
    }
}

impl Display for Counts {
    fn fmt(&self, f: &mut Formatter) -> std::fmt::Result {
        write!(f, "{} cases", self.cases)?;
        self.kinds.iter().try_for_each(|(kind, count)| write!(f, ", {count} with {kind}"))
    }
}

/// The cases, or the text of the first difference.
pub type Checked = Result<Counts, String>;

const PROGRESS: Duration = Duration::from_secs(5);

/// Asks both sides about every case, and stops at the first difference.
pub fn check<C: Case>(name: &str, cases: impl Iterator<Item = C>) -> Checked {
    let (mut counts, mut spoke) = (Counts::default(), Instant::now());
    for (i, case) in cases.enumerate() {
        let [expected, found] = case.outcomes();
        if expected != found {
            return Err(format!("{name}: case {i} differs\n{}", report(smallest(case))));
        }
        counts = counts.and(Counts::of_one(case.kinds(&expected)));
        if spoke.elapsed() > PROGRESS {
            println!("{name}: {} cases so far", i + 1);
            spoke = Instant::now();
        }
    }
    println!("{name}: {counts}");
    Ok(counts)
}

/// A case that differs while none of those that are smaller by one thing does.
fn smallest<C: Case>(case: C) -> C {
    let differs = |case: &C| {
        let [expected, found] = case.outcomes();
        expected != found
    };
    let smaller = case.smaller().find(differs);
    smaller.map_or(case, smallest)
}

fn report<C: Case>(case: C) -> String {
    let [expected, found] = case.outcomes();
    let lists = expected.0.iter().zip(&found.0).filter(|(e, f)| e != f);
    let lines = lists.map(|((name, e), (_, f))| {
        format!("{name} expected {}\n{name} found {}\n", listed(e), listed(f))
    });
    format!("{}\n{}", case.shown(), lines.collect::<String>())
}

fn listed(numbers: &[i64]) -> String {
    let words: Vec<String> = numbers.iter().map(i64::to_string).collect();
    words.join(" ")
}

/// What a lent slice of this length holds before the call.
pub fn pattern<N: TryFrom<usize>>(length: usize) -> Vec<N> {
    let cell = |i: usize| N::try_from(0x25 + i % 0x47).ok().expect("fits every cell");
    (0..length).map(cell).collect()
}

pub fn wide<N: Copy + Into<i64>>(cells: &[N]) -> Vec<i64> {
    cells.iter().map(|&c| c.into()).collect()
}

/// Answer cells, whose bits are what counts.
pub fn bits(cells: &[u64]) -> Vec<i64> {
    cells.iter().map(|&c| c as i64).collect()
}

/// The values, and what the slice held past them.
pub fn over<N: Clone>(values: &[N], slice: &mut [N]) {
    slice[..values.len()].clone_from_slice(values);
}

/// The rectangle without some of its rows or columns: halves first, single ones last.
pub fn without_lines<T: Copy>(
    height: usize,
    width: usize,
    cells: &[T],
) -> impl Iterator<Item = (usize, usize, Vec<T>)> + '_ {
    // Sides that are not those of the cells may be of any size, and have nothing to be cut.
    let whole = !cells.is_empty() && cells.len() == height.saturating_mul(width);
    let (rows, columns) = if whole { (height, width) } else { (0, 0) };
    let fewer_rows = cuts(rows).map(move |cut| {
        let kept = kept(cells, |at| !cut.contains(&(at / width)));
        (height - cut.len(), width, kept)
    });
    let fewer_columns = cuts(columns).map(move |cut| {
        let kept = kept(cells, |at| !cut.contains(&(at % width)));
        (height, width - cut.len(), kept)
    });
    fewer_rows.chain(fewer_columns)
}

fn kept<T: Copy>(cells: &[T], keep: impl Fn(usize) -> bool) -> Vec<T> {
    (0..cells.len()).filter(|&at| keep(at)).map(|at| cells[at]).collect()
}

/// Parts of a side that leave some of it.
fn cuts(side: usize) -> impl Iterator<Item = Range<usize>> {
    let lengths = successors(Some(side / 2), |&length| Some(length / 2));
    lengths.take_while(|&length| length > 0).flat_map(move |length| {
        (0..side).step_by(length).map(move |start| start..side.min(start + length))
    })
}

/// A length that keeps its distance from what is needed.
pub fn relent(length: usize, needed: usize, needed_now: usize) -> usize {
    (length + needed_now).saturating_sub(needed)
}

pub fn hex(bytes: &[u8]) -> String {
    match bytes {
        [] => "-".into(),
        _ => bytes.iter().map(|b| format!("{b:02x}")).collect(),
    }
}
