//! The run with its exits kept: by chance, in lent room by chance, and what is refused, in its order.
use crate::altered::{beside, kind_of_hidden, large_picture, Altered, Prepared, HUGE};
use crate::cases::{check, over, pattern, wide, Case, Checked, Outcome, NO_EDITION};
use crate::running;
use crate::tables::Spoil;
use harness::library::{self, Recording, RUN_ANSWER};
use harness::machine::Terms;
use harness::question::Question;
use harness::random::Random;

const SEED: u64 = 21;
const BY_CHANCE: usize = 600_000;

#[derive(Clone)]
struct History {
    asked: Altered,
    length: Length,
    answer: usize,
}

/// Of the slice for exits, by how many the run takes.
#[derive(Clone, Copy, Debug)]
enum Length {
    Nothing,
    /// any length below it, by this number
    Shorter(usize),
    Just,
    Longer(usize),
}

pub fn compare() -> Checked {
    let mut random = Random::seeded(SEED);
    let counts = check("history, large", largest(&mut random))?;
    Ok(counts.and(check("history, by chance", (0..BY_CHANCE).map(|_| by_chance(&mut random)))?))
}

/// The largest of all is a limit like others.
fn limits() -> Vec<u64> {
    HUGE.into_iter().chain([u64::MAX]).collect()
}

fn by_chance(random: &mut Random) -> History {
    let asked = Altered::by_chance(random, &limits());
    let mut case = lent_by_chance(random, asked);
    while random.one_in(4) {
        case.spoil(random);
    }
    case
}

fn lent_by_chance(random: &mut Random, asked: Altered) -> History {
    let length = match random.below(8) {
        0 => Length::Nothing,
        1..=3 => Length::Shorter(random.below(1 << 16) as usize),
        4 => Length::Just,
        _ => Length::Longer(1 + random.below(5) as usize),
    };
    History { asked, length, answer: RUN_ANSWER + random.below(3) as usize }
}

fn largest(random: &mut Random) -> impl Iterator<Item = History> + '_ {
    let (picture, limits) = (large_picture(), limits());
    let lengths = [Length::Nothing, Length::Shorter(1), Length::Just, Length::Longer(3)];
    lengths.into_iter().map(move |length| {
        let asked = Altered::of_large(random, &picture, &limits);
        History { length, ..lent_by_chance(random, asked) }
    })
}

impl Length {
    fn of(self, exits: usize) -> usize {
        match self {
            Length::Nothing => 0,
            Length::Shorter(by) => by.checked_rem(exits).unwrap_or(0),
            Length::Just => exits,
            Length::Longer(by) => exits + by,
        }
    }
}

/// How a slice compares with the exits that a run takes.
fn kind_of_length(length: usize, exits: usize) -> &'static str {
    match length {
        0 => "no cell for exits",
        _ if length < exits => "fewer cells than exits",
        _ if length == exits => "as many cells as exits",
        _ => "more cells than exits",
    }
}

impl History {
    /// One fault more, which may hide another or be hidden by it.
    fn spoil(&mut self, random: &mut Random) {
        match random.below(3) {
            0 => self.asked.running.editions.run = random.pick(&NO_EDITION),
            1 => self.asked.running.spoil = Spoil::by_chance(random),
            _ => self.answer = random.pick(&[0, 1, RUN_ANSWER - 1]),
        }
    }

    /// A refused run takes no exit, and its slice is as if it went on to its limit.
    fn lent(&self, prepared: &Prepared) -> (Recording, Vec<u64>) {
        let steps = self.asked.running.question.limit as usize;
        let exits = prepared.left.as_ref().map_or(steps, |left| left.taken.len());
        let (space, taken) = (self.asked.running.space(), pattern(self.length.of(exits)));
        (Recording { space, taken }, pattern(self.answer))
    }

    fn expected(&self, prepared: &Prepared) -> Outcome {
        let (mut lent, mut answer) = self.lent(prepared);
        if answer.len() < RUN_ANSWER {
            return outcome(4, &answer, &lent);
        }
        match &prepared.left {
            Err(number) => {
                over(&[0; RUN_ANSWER], &mut answer);
                outcome(*number, &answer, &lent)
            }
            Ok(left) => {
                let kept = left.taken.len().min(lent.taken.len());
                over(&left.numbers, &mut answer);
                over(&left.taken[..kept], &mut lent.taken);
                running::write(left, &mut lent.space);
                outcome(0, &answer, &lent)
            }
        }
    }

    fn found(&self, prepared: &Prepared) -> Outcome {
        let (mut lent, mut answer) = self.lent(prepared);
        let Question { is_abstract, ref input, .. } = self.asked.running.question;
        let terms = Terms { limit: prepared.limit, is_abstract, input };
        let edition = self.asked.running.editions.run;
        let number = library::history(&prepared.table, edition, &terms, &mut lent, &mut answer);
        outcome(number, &answer, &lent)
    }

    fn kind_of_faults(&self, number: i64) -> Option<String> {
        if self.answer < RUN_ANSWER {
            return Some("an answer that is too short".into());
        }
        kind_of_hidden(&self.asked.faults(number))
    }
}

fn outcome(number: u32, answer: &[u64], lent: &Recording) -> Outcome {
    let mut outcome = running::outcome(number, answer, &lent.space);
    outcome.0.push(("taken", wide(&lent.taken)));
    outcome
}

impl Case for History {
    /// Together with the run itself, which is asked the same.
    fn outcomes(&self) -> [Outcome; 2] {
        let prepared = self.asked.prepared();
        let [run_expected, run_found] = self.asked.runs(&prepared);
        [beside(self.expected(&prepared), run_expected), beside(self.found(&prepared), run_found)]
    }

    fn kinds(&self, expected: &Outcome) -> Vec<String> {
        let mut kinds = self.asked.kinds(expected);
        kinds.extend(self.kind_of_faults(expected.list("number")[0]));
        if expected.list("number") == [0] {
            let (length, exits) = (expected.list("taken").len(), expected.list("answer")[1]);
            kinds.push(kind_of_length(length, exits as usize).into());
        }
        kinds
    }

    fn smaller(&self) -> impl Iterator<Item = Self> {
        self.asked.smaller().map(|asked| History { asked, ..self.clone() })
    }

    fn shown(&self) -> String {
        let History { asked, length, answer } = self;
        format!("{} length {length:?} history answer {answer}", asked.shown())
    }
}
