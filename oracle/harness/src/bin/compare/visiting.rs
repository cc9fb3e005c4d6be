//! The run with its visits counted: by chance, in lent room by chance, and what is refused, in its order.
use crate::altered::{beside, kind_of_hidden, large_picture, Altered, Prepared, HUGE};
use crate::cases::{bits, check, over, pattern, wide, Case, Checked, Outcome, NO_EDITION};
use crate::running;
use crate::tables::Spoil;
use harness::library::{self, Counting, Table, RUN_ANSWER, VISITS_ANSWER};
use harness::machine::Terms;
use harness::question::Question;
use harness::random::Random;
use harness::visits::Visits;
use std::iter::zip;

const SEED: u64 = 19;
const BY_CHANCE: usize = 600_000;

#[derive(Clone)]
struct Visiting {
    asked: Altered,
    /// the limit is the one that is refused
    uncountable: bool,
    /// of visits and of unvisited
    lengths: [Length; 2],
    answer: usize,
}

/// Of a slice that needs a cell for each region.
#[derive(Clone, Copy, Debug)]
enum Length {
    Nothing,
    OneLess,
    Just,
    Longer(usize),
}

pub fn compare() -> Checked {
    let mut random = Random::seeded(SEED);
    let counts = check("visits, large", largest(&mut random))?;
    Ok(counts.and(check("visits, by chance", (0..BY_CHANCE).map(|_| by_chance(&mut random)))?))
}

fn by_chance(random: &mut Random) -> Visiting {
    let asked = Altered::by_chance(random, &HUGE);
    let mut case = lent_by_chance(random, asked);
    while random.one_in(3) {
        case.spoil(random);
    }
    case
}

/// In slices that are long enough.
fn lent_by_chance(random: &mut Random, asked: Altered) -> Visiting {
    let lengths = [Length::Just, Length::Longer(1), Length::Longer(3)];
    Visiting {
        asked,
        uncountable: false,
        lengths: [(); 2].map(|()| random.pick(&lengths)),
        answer: VISITS_ANSWER + random.below(3) as usize,
    }
}

fn largest(random: &mut Random) -> impl Iterator<Item = Visiting> + '_ {
    let picture = large_picture();
    let lengths = [Length::Just, Length::Longer(3), Length::OneLess];
    let pairs = lengths.into_iter().flat_map(move |visits| lengths.map(|list| [visits, list]));
    pairs.map(move |lengths| {
        let asked = Altered::of_large(random, &picture, &HUGE);
        Visiting { lengths, ..lent_by_chance(random, asked) }
    })
}

impl Length {
    fn is_short(self) -> bool {
        matches!(self, Length::Nothing | Length::OneLess)
    }

    fn of(self, regions: usize) -> usize {
        match self {
            Length::Nothing => 0,
            Length::OneLess => regions - 1,
            Length::Just => regions,
            Length::Longer(by) => regions + by,
        }
    }
}

fn marks(table: &Table) -> Vec<u32> {
    table.rows.chunks(5).take(table.n).map(|row| row[4]).collect()
}

impl Visiting {
    /// One fault more, which may hide another or be hidden by it.
    fn spoil(&mut self, random: &mut Random) {
        match random.below(6) {
            0 => self.asked.running.editions.run = random.pick(&NO_EDITION),
            1 => self.asked.running.spoil = Spoil::by_chance(random),
            2 => self.uncountable = true,
            3 => self.lengths[0] = random.pick(&[Length::Nothing, Length::OneLess]),
            4 => self.lengths[1] = random.pick(&[Length::Nothing, Length::OneLess]),
            _ => self.answer = random.pick(&[0, 1, VISITS_ANSWER - 1]),
        }
    }

    fn lent(&self, regions: usize) -> (Counting, Vec<u64>) {
        let [visits, unvisited] = self.lengths.map(|length| length.of(regions));
        let space = self.asked.running.space();
        let (visits, unvisited) = (pattern(visits), pattern(unvisited));
        (Counting { space, visits, unvisited }, pattern(self.answer))
    }

    fn is_short(&self) -> bool {
        self.lengths.iter().any(|length| length.is_short())
    }

    fn expected(&self, prepared: &Prepared) -> Outcome {
        let Prepared { regions, ref table, .. } = *prepared;
        let (mut lent, mut answer) = self.lent(regions);
        if answer.len() < VISITS_ANSWER {
            return outcome(4, &answer, &lent);
        }
        over(&[0; VISITS_ANSWER], &mut answer);
        let left = match &prepared.left {
            Err(number) => return outcome(*number, &answer, &lent),
            _ if self.uncountable => return outcome(16, &answer, &lent),
            _ if self.is_short() => return outcome(4, &answer, &lent),
            Ok(left) => left,
        };
        let Visits { counts, unvisited } = Visits::of(&left.entered, &marks(table));
        running::write(left, &mut lent.space);
        over(&counts, &mut lent.visits);
        lent.unvisited[..regions].fill(0);
        over(&unvisited, &mut lent.unvisited);
        over(&left.numbers, &mut answer);
        answer[RUN_ANSWER] = unvisited.len() as u64;
        outcome(0, &answer, &lent)
    }

    fn found(&self, prepared: &Prepared) -> Outcome {
        let (mut lent, mut answer) = self.lent(prepared.regions);
        let Question { is_abstract, ref input, .. } = self.asked.running.question;
        let limit = if self.uncountable { u64::MAX } else { prepared.limit };
        let (terms, edition) =
            (Terms { limit, is_abstract, input }, self.asked.running.editions.run);
        let number = library::visits(&prepared.table, edition, &terms, &mut lent, &mut answer);
        outcome(number, &answer, &lent)
    }

    fn kind_of_faults(&self, number: i64) -> Option<String> {
        if self.answer < VISITS_ANSWER {
            return Some("an answer that is too short".into());
        }
        let [edition, table] = self.asked.faults(number);
        kind_of_hidden(&[edition, table, (16, self.uncountable), (4, self.is_short())])
    }

    /// What there was to count, in a run that is not refused.
    fn kinds_of_visits(&self, expected: &Outcome) -> Vec<String> {
        let table = self.asked.table(&self.asked.running.built());
        let (visits, answer) = (expected.list("visits"), expected.list("answer"));
        let unmarked = zip(marks(&table), visits).any(|(mark, &count)| mark == 0 && count > 0);
        let kinds = [
            ("a node never entered", answer[RUN_ANSWER] > 0),
            ("an unmarked region entered", unmarked),
        ];
        kinds.into_iter().filter(|(_, holds)| *holds).map(|(kind, _)| kind.into()).collect()
    }
}

fn outcome(number: u32, answer: &[u64], lent: &Counting) -> Outcome {
    let mut outcome = running::outcome(number, answer, &lent.space);
    outcome.0.extend([("visits", bits(&lent.visits)), ("unvisited", wide(&lent.unvisited))]);
    outcome
}

impl Case for Visiting {
    /// Together with the run itself, which is asked the same but for the limit that only counting refuses.
    fn outcomes(&self) -> [Outcome; 2] {
        let prepared = self.asked.prepared();
        let [run_expected, run_found] = self.asked.runs(&prepared);
        [beside(self.expected(&prepared), run_expected), beside(self.found(&prepared), run_found)]
    }

    fn kinds(&self, expected: &Outcome) -> Vec<String> {
        let number = expected.list("number")[0];
        let mut kinds = self.asked.kinds(expected);
        kinds.extend(self.kind_of_faults(number));
        if number == 0 {
            kinds.extend(self.kinds_of_visits(expected));
        }
        kinds
    }

    fn smaller(&self) -> impl Iterator<Item = Self> {
        self.asked.smaller().map(|asked| Visiting { asked, ..self.clone() })
    }

    fn shown(&self) -> String {
        let Visiting { asked, uncountable, lengths, answer } = self;
        let shown = asked.shown();
        format!("{shown} uncountable {uncountable} lengths {lengths:?} visits answer {answer}")
    }
}
