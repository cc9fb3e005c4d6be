//! Labels: each one, in slices of several lengths, and what is refused.
use crate::cases::{bits, check, over, pattern, wide, Case, Checked, Outcome};
use harness::library;
use harness::numbers::colour;
use harness::picture;

/// Where digits are added, and the ends.
const EDGES: [usize; 12] = [0, 1, 2, 9, 10, 11, 99, 100, 101, 999, 1_000, 1_023];
const FAR: [usize; 4] = [1_024, 1_025, 1 << 32, usize::MAX];
const LENGTHS: [usize; 7] = [0, 1, 8, 21, 22, 23, 40];

#[derive(Clone)]
struct Labelling {
    colour: u8,
    row: usize,
    column: usize,
    out: usize,
    answer: usize,
    /// the label, of a region that there can be
    label: Option<String>,
}

pub fn compare() -> Checked {
    let edges = check("label, of regions", (0..20).flat_map(at_edges))?;
    let every = check("label, as formatted", (0..20).flat_map(everywhere))?;
    Ok(edges.and(every).and(check("label, lengths", lengths())?))
}

fn pairs<'a>(rows: &'a [usize], columns: &'a [usize]) -> impl Iterator<Item = (usize, usize)> + 'a {
    rows.iter().flat_map(|&r| columns.iter().map(move |&c| (r, c)))
}

fn at_edges(colour: u8) -> impl Iterator<Item = Labelling> {
    pairs(&EDGES, &EDGES).map(move |(row, column)| {
        let label = Some(picture::label(colour, (row as u32, column as u32)));
        Labelling { colour, row, column, out: 24, answer: 2, label }
    })
}

/// Every place but (0,0), by the format of `explore_region`.
fn everywhere(number: u8) -> impl Iterator<Item = Labelling> {
    let name = colour(number).to_string();
    (1..1_024 * 1_024).map(move |at| {
        let (row, column) = (at / 1_024, at % 1_024);
        let label = Some(format!("{name}_{row}_{column}"));
        Labelling { colour: number, row, column, out: 22, answer: 1, label }
    })
}

/// Slices of every kind of length, for regions that there can be and others.
fn lengths() -> impl Iterator<Item = Labelling> {
    let places = [&EDGES[..], &FAR].concat();
    let all: Vec<(usize, usize)> = pairs(&places, &places).collect();
    let of = move |colour| all.clone().into_iter().flat_map(move |at| with_lengths(colour, at));
    [0, 6, 18, 19, 20, 21, 255].into_iter().flat_map(of)
}

fn with_lengths(colour: u8, (row, column): (usize, usize)) -> Vec<Labelling> {
    let there = colour < 20 && row < 1_024 && column < 1_024;
    let label = there.then(|| picture::label(colour, (row as u32, column as u32)));
    let case = |(out, answer)| Labelling { colour, row, column, out, answer, label: label.clone() };
    pairs(&LENGTHS, &[0, 1, 3]).map(case).collect()
}

fn outcome(number: u32, answer: &[u64], out: &[u8]) -> Outcome {
    Outcome(vec![("number", vec![number.into()]), ("length", bits(answer)), ("out", wide(out))])
}

impl Labelling {
    fn expected(&self) -> Outcome {
        let (mut out, mut answer) = (pattern(self.out), pattern(self.answer));
        if answer.is_empty() {
            return outcome(4, &answer, &out);
        }
        let Some(label) = self.label.as_ref().filter(|_| self.out >= 22) else {
            answer[0] = 0;
            return outcome(12, &answer, &out);
        };
        answer[0] = label.len() as u64;
        out[..22].fill(0);
        over(label.as_bytes(), &mut out);
        outcome(0, &answer, &out)
    }

    fn found(&self) -> Outcome {
        let (mut out, mut answer) = (pattern(self.out), pattern(self.answer));
        let number = library::label(self.colour, (self.row, self.column), &mut out, &mut answer);
        outcome(number, &answer, &out)
    }
}

impl Case for Labelling {
    fn outcomes(&self) -> [Outcome; 2] {
        [self.expected(), self.found()]
    }

    fn smaller(&self) -> impl Iterator<Item = Self> {
        std::iter::empty()
    }

    fn shown(&self) -> String {
        let Labelling { colour, row, column, out, answer, label } = self;
        format!(
            "colour {colour} row {row} column {column} lent {out} answer {answer} label {label:?}"
        )
    }
}
