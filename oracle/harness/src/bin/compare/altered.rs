//! Runs over tables of either edition, some of which no picture gives, up to limits of any size: what the calls that tell
//! more of a run are asked.
use crate::cases::{is_edition, Case, Outcome};
use crate::questions;
use crate::running::{self, kind_of_editions, longer, Running};
use crate::tables::Spoil;
use harness::editions::{Editions, Left, PAGE, RUST};
use harness::library::{Table, RUN_ANSWER};
use harness::page::{LOST, MAX_STEPS};
use harness::picture::{Built, Picture};
use harness::question::Question;
use harness::random::Random;
use std::iter::zip;

const MOST_STEPS: u32 = 400;
const FEW_STEPS: u32 = 4;
const LONGEST_WAYS: u32 = 10;

/// Who builds the table, and who runs it.
const EDITIONS: [(u32, u32); 8] = [
    (RUST, RUST),
    (RUST, RUST),
    (RUST, RUST),
    (RUST, RUST),
    (PAGE, PAGE),
    (PAGE, PAGE),
    (RUST, PAGE),
    (PAGE, RUST),
];

/// About the ends of narrower types, and the largest that visits are counted up to.
pub const HUGE: [u64; 6] =
    [1 << 32, (1 << 32) + 1, i64::MAX as u64, 1 << 63, u64::MAX - 2, u64::MAX - 1];

/// The names of the same run's lists, in their order.
const OF_RUN: [&str; 5] =
    ["run's number", "run's answer", "run's stack", "run's kinds", "run's values"];

#[derive(Clone)]
pub struct Altered {
    /// the same run over the table as it was built
    pub running: Running,
    /// the limit where the run ends before that of its question
    huge: Option<u64>,
    /// the regions whose mark is not the one that was built, as bits
    marked: u64,
    /// an exit, by its place, and the region that it leads to; for the second edition, whose model runs over any table
    rewired: Option<(usize, usize)>,
}

/// What both sides are asked: the table, what the run over it leaves or the number of its refusal, and up to which limit.
pub struct Prepared {
    pub regions: usize,
    pub table: Table,
    pub left: Result<Left, u32>,
    pub limit: u64,
}

/// As many regions as a table can have.
pub fn large_picture() -> Picture {
    let colours = (0..256 * 256).map(|at| ((at % 256 + 2 * (at / 256)) % 18) as u8).collect();
    Picture { height: 256, width: 256, codel: 1, colours }
}

/// Of any picture, or of a program; with steps that are few, or enough to go round.
fn question(random: &mut Random) -> Question {
    let question = match random.below(16) {
        0..=7 => {
            let picture = running::picture(random);
            running::question(random, picture)
        }
        8..=14 => questions::question(random),
        _ => {
            let picture = random.white_ways(LONGEST_WAYS);
            running::question(random, picture)
        }
    };
    let most = if random.one_in(8) { FEW_STEPS } else { MOST_STEPS };
    Question { limit: random.below(most + 1) as u64, ..question }
}

/// The exit with another target.
fn rewired(exit: u32, region: usize) -> u32 {
    let pointers_and_instruction = if [0, LOST].contains(&exit) { 0 } else { (exit - 1) / 65_536 };
    1 + region as u32 + 65_536 * pointers_and_instruction
}

/// Both calls' lists.
pub fn beside(call: Outcome, run: Outcome) -> Outcome {
    let of_run = zip(OF_RUN, run.0).map(|(name, (_, cells))| (name, cells));
    Outcome(call.0.into_iter().chain(of_run).collect())
}

/// The refusal that is given and those that it comes before, of all with whether they hold.
pub fn kind_of_hidden(refusals: &[(u32, bool)]) -> Option<String> {
    let held: Vec<String> =
        refusals.iter().filter(|(_, holds)| *holds).map(|(n, _)| n.to_string()).collect();
    let (first, hidden) = held.split_first()?;
    (!hidden.is_empty()).then(|| format!("{first} before {}", hidden.join(" and ")))
}

impl Altered {
    pub fn by_chance(random: &mut Random, limits: &[u64]) -> Self {
        let (build, run) = random.pick(&EDITIONS);
        let question = question(random);
        Altered::of(random, question, Editions { build, run }, limits)
    }

    /// By the second edition, as the Rust would build it for minutes.
    pub fn of_large(random: &mut Random, picture: &Picture, limits: &[u64]) -> Self {
        let question = running::question(random, picture.clone());
        Altered::of(random, question, Editions { build: PAGE, run: PAGE }, limits)
    }

    fn of(random: &mut Random, question: Question, editions: Editions, limits: &[u64]) -> Self {
        let (spoil, longer) = (Spoil::None, longer(random));
        let rewires = editions.run == PAGE && random.one_in(4);
        Altered {
            running: Running { question, editions, spoil, longer, answer: RUN_ANSWER },
            huge: random.one_in(4).then(|| random.pick(limits)),
            marked: if random.one_in(3) { random.next() } else { 0 },
            rewired: rewires.then(|| [(); 2].map(|()| random.below(1 << 16) as usize).into()),
        }
    }

    pub fn table(&self, built: &Built) -> Table {
        let (mut table, n) = (self.running.spoil.applied_to(built), built.rows.len());
        for (region, row) in table.rows.chunks_exact_mut(5).take(n).enumerate() {
            row[4] ^= (self.marked >> (region % 64)) as u32 & 1;
        }
        if let Some((at, region)) = self.rewired {
            let exit = table.exits.get_mut(at % (8 * n));
            exit.into_iter().for_each(|exit| *exit = rewired(*exit, region % n));
        }
        table
    }

    pub fn prepared(&self) -> Prepared {
        let built = self.running.built();
        let (table, regions) = (self.table(&built), built.rows.len());
        let (left, limit) = self.left(&built, &table);
        Prepared { regions, table, left, limit }
    }

    fn left(&self, built: &Built, table: &Table) -> (Result<Left, u32>, u64) {
        let (left, limit) = self.running.judged(built, table);
        let ended = left.as_ref().is_ok_and(|left| left.numbers[0] != MAX_STEPS.into());
        match self.huge {
            Some(limit) if ended => {
                let question = Question { limit, ..self.running.question.clone() };
                Running { question, ..self.running.clone() }.judged(built, table)
            }
            _ => (left, limit),
        }
    }

    /// What is expected of the run itself, and what the archive makes of it.
    pub fn runs(&self, prepared: &Prepared) -> [Outcome; 2] {
        let Prepared { table, left, limit, .. } = prepared;
        [self.running.expected(left), self.running.found(table, *limit)]
    }

    /// Whether the edition and the table are refused, each for itself, where the number that is returned tells it.
    pub fn faults(&self, number: i64) -> [(u32, bool); 2] {
        let edition = !is_edition(self.running.editions.run);
        [(15, edition), (10, number == 10 || edition && self.running.spoil.refused())]
    }

    pub fn kinds(&self, expected: &Outcome) -> Vec<String> {
        let mut kinds = expected.kinds_of_run();
        kinds.extend(kind_of_editions(self.running.editions));
        if expected.list("number") == [0] {
            kinds.extend(self.kinds_of_end(expected));
        }
        kinds
    }

    fn kinds_of_end(&self, expected: &Outcome) -> Vec<String> {
        let table = self.table(&self.running.built());
        let by_page = (self.running.editions.run == PAGE).then(|| self.running.by_page(&table));
        let lost = by_page.flatten().is_some_and(|end| end.lost);
        let huge = self.huge.is_some() && expected.list("answer")[0] != MAX_STEPS.into();
        let kinds = [("a lost slide reached", lost), ("a huge limit", huge)];
        kinds.into_iter().filter(|(_, holds)| *holds).map(|(kind, _)| kind.into()).collect()
    }

    pub fn smaller(&self) -> impl Iterator<Item = Self> + '_ {
        let runs = self.running.smaller().map(|running| Altered { running, ..self.clone() });
        let marked = (self.marked != 0).then(|| Altered { marked: 0, ..self.clone() });
        let wired = self.rewired.map(|_| Altered { rewired: None, ..self.clone() });
        runs.chain(marked).chain(wired)
    }

    pub fn shown(&self) -> String {
        let Altered { running, huge, marked, rewired } = self;
        format!("{}\nhuge {huge:?} marked {marked:x} rewired {rewired:?}", running.shown())
    }
}
