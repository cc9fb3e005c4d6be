//! The run: by chance, in lent room by chance, and what is refused.
use crate::cases::{
    bits, check, hex, is_edition, over, pattern, wide, Case, Checked, Named, Outcome, NO_EDITION,
};
use crate::tables::{shown_picture, smaller_pictures, Spoil};
use harness::editions::{self, Editions, Left, PAGE, RUST};
use harness::library::{self, Space, Table, RUN_ANSWER};
use harness::machine::{Room, Terms};
use harness::page::{self, End};
use harness::paint::{row, row_over_white};
use harness::picture::{build, Built, Picture};
use harness::question::Question;
use harness::random::Random;

const SEED: u64 = 6;
const BY_CHANCE: usize = 2_000_000;
const LONGEST: u32 = 8;

#[derive(Clone)]
pub struct Running {
    pub question: Question,
    pub editions: Editions,
    pub spoil: Spoil,
    pub longer: Longer,
    pub answer: usize,
}

/// By how much kinds and values are longer than the room for outputs; one of them is not.
pub type Longer = [usize; 2];

pub fn compare() -> Checked {
    let mut random = Random::seeded(SEED);
    check("run", (0..BY_CHANCE).map(|_| by_chance(&mut random)))
}

fn by_chance(random: &mut Random) -> Running {
    let picture = picture(random);
    let question = question(random, picture);
    let run = if random.one_in(64) { random.pick(&NO_EDITION) } else { RUST };
    lent_by_chance(random, question, Editions { build: RUST, run })
}

/// Over a table that may be spoilt, in slices that are mostly long enough.
pub fn lent_by_chance(random: &mut Random, question: Question, editions: Editions) -> Running {
    let spoil = if random.one_in(16) { Spoil::by_chance(random) } else { Spoil::None };
    let longer = longer(random);
    let enough = RUN_ANSWER as u32;
    let answer = if random.one_in(64) { random.below(enough) } else { enough + random.below(3) };
    Running { question, editions, spoil, longer, answer: answer as usize }
}

/// A run of this picture, on terms and in room by chance.
pub fn question(random: &mut Random, picture: Picture) -> Question {
    Question {
        picture,
        limit: limit(random),
        is_abstract: random.one_in(8),
        room: room(random),
        input: if random.one_in(2) { random.input() } else { random.number_lines() },
    }
}

pub fn longer(random: &mut Random) -> Longer {
    random.pick(&[[0, 0], [2, 0], [0, 3]])
}

/// Mostly small: a run that goes round has gone round by then.
fn limit(random: &mut Random) -> u64 {
    let bound = if random.one_in(32) { 4_000 } else { 100 };
    random.below(bound) as u64
}

/// Of any kind, or one that runs a program.
pub fn picture(random: &mut Random) -> Picture {
    match random.below(3) {
        0 => entered(random.picture(LONGEST)),
        1 => row(&random.program()),
        _ => row_over_white(&random.program()),
    }
}

/// A run needs an entry that is not white.
pub fn entered(picture: Picture) -> Picture {
    let mut colours = picture.colours;
    colours[0] = if colours[0] == 19 { 6 } else { colours[0] };
    Picture { colours, ..picture }
}

fn room(random: &mut Random) -> Room {
    let most = random.pick(&[1, 4, 30, 30, 30]);
    Room { stack: random.below(most) as usize, outputs: random.below(most) as usize }
}

pub fn space(room: &Room, longer: Longer) -> Space {
    let [kinds, values] = longer.map(|more| room.outputs + more);
    Space { stack: pattern(room.stack), kinds: pattern(kinds), values: pattern(values) }
}

/// What a run leaves: every cell past the depth or the outputs is 0.
pub fn write(left: &Left, space: &mut Space) {
    let (kinds, values): (Vec<u8>, Vec<i64>) = left.outputs.iter().copied().unzip();
    space.stack.fill(0);
    space.kinds.fill(0);
    space.values.fill(0);
    over(&left.stack, &mut space.stack);
    over(&kinds, &mut space.kinds);
    over(&values, &mut space.values);
}

pub fn outcome(number: u32, answer: &[u64], space: &Space) -> Outcome {
    let told = [("number", vec![number.into()]), ("answer", bits(answer))];
    Outcome(told.into_iter().chain(cells(space)).collect())
}

/// Every cell that a run is lent.
pub fn cells(space: &Space) -> [Named; 3] {
    [("stack", wide(&space.stack)), ("kinds", wide(&space.kinds)), ("values", wide(&space.values))]
}

impl Running {
    /// In slices that are just as long as asked for, and nothing spoilt.
    #[cfg(feature = "roll")]
    pub fn plain(question: Question) -> Self {
        let editions = Editions { build: RUST, run: RUST };
        Running { question, editions, spoil: Spoil::None, longer: [0, 0], answer: RUN_ANSWER }
    }

    pub fn space(&self) -> Space {
        space(&self.question.room, self.longer)
    }

    pub fn built(&self) -> Built {
        let built = editions::table(&self.question.picture, self.editions.build);
        built.expect("an entry that is not white")
    }

    /// What the run leaves, or the number of its refusal, and the limit up to which it is asked.
    pub fn judged(&self, built: &Built, table: &Table) -> (Result<Left, u32>, u64) {
        let limit = self.question.limit;
        match self.editions.run {
            // An exit of a lost slide is above the first edition's largest, whatever is spoilt besides.
            RUST if self.spoil.refused() || built.has_lost() => (Err(10), limit),
            RUST => self.by_rust(built),
            PAGE => (self.by_page(table).map(|end| Left::by_page(&end)).ok_or(10), limit),
            _ => (Err(15), limit),
        }
    }

    /// Where the Rust panics and the rules choose, the run is asked up to there only. A table of the second edition without a
    /// lost slide is the Rust's, and the Rust runs over its own; but where slides are long it is not, and the model runs over
    /// it, as far as the editions do the same.
    fn by_rust(&self, built: &Built) -> (Result<Left, u32>, u64) {
        let own = (self.editions.build != RUST).then(|| build(&self.question.picture));
        if own.as_ref().is_some_and(|own| own.exits != built.exits) {
            let (end, limit) = built.run_by_both(&self.question);
            return (Ok(Left::by_page(&end)), limit);
        }
        let built = own.as_ref().unwrap_or(built);
        let ran = self.question.judged(built);
        let limit = if ran.panic.is_some() { ran.answer.steps } else { self.question.limit };
        (Ok(Left::by_rust(built, &ran)), limit)
    }

    pub fn by_page(&self, table: &Table) -> Option<End> {
        page::run_table(table.n, &table.rows, &table.exits, &self.question.page_terms())
    }

    /// By the model, and over the codels where the table is theirs, which tells long slides.
    fn end(&self) -> Option<End> {
        match (self.editions.build, self.spoil) {
            (PAGE, Spoil::None) => self.question.walked(),
            (_, spoil) => self.by_page(&spoil.applied_to(&self.built())),
        }
    }

    pub fn expected(&self, judged: &Result<Left, u32>) -> Outcome {
        let (mut space, mut answer) = (self.space(), pattern(self.answer));
        if answer.len() < RUN_ANSWER {
            return outcome(4, &answer, &space);
        }
        match judged {
            Err(number) => {
                over(&[0; RUN_ANSWER], &mut answer);
                outcome(*number, &answer, &space)
            }
            Ok(left) => {
                over(&left.numbers, &mut answer);
                write(left, &mut space);
                outcome(0, &answer, &space)
            }
        }
    }

    pub fn found(&self, table: &Table, limit: u64) -> Outcome {
        let (mut space, mut answer) = (self.space(), pattern(self.answer));
        let Question { is_abstract, ref input, .. } = self.question;
        let terms = Terms { limit, is_abstract, input };
        let number = library::run(table, self.editions.run, &terms, &mut space, &mut answer);
        outcome(number, &answer, &space)
    }
}

impl Case for Running {
    fn outcomes(&self) -> [Outcome; 2] {
        let built = self.built();
        let table = self.spoil.applied_to(&built);
        let (judged, limit) = self.judged(&built, &table);
        [self.expected(&judged), self.found(&table, limit)]
    }

    fn kinds(&self, expected: &Outcome) -> Vec<String> {
        let mut kinds = expected.kinds_of_run();
        kinds.extend(kind_of_editions(self.editions));
        if expected.list("number") == [0] && self.editions.run == PAGE {
            kinds.extend(self.end().iter().flat_map(kinds_of_end));
        }
        kinds
    }

    fn smaller(&self) -> impl Iterator<Item = Self> {
        let question = &self.question;
        let pictures = smaller_pictures(&question.picture).filter(|p| p.colours[0] != 19);
        let lesser = pictures.map(|picture| Question { picture, ..question.clone() });
        let all = lesser.chain(sooner(question));
        all.map(|question| Running { question, ..self.clone() })
    }

    fn shown(&self) -> String {
        let Running { question, editions: Editions { build, run }, spoil, longer, answer } = self;
        let (picture, terms) = (shown_picture(&question.picture), shown_terms(question));
        format!("{picture} editions {build} {run} {terms} longer {longer:?} spoil {spoil:?} answer {answer}")
    }
}

/// Who builds and who runs, where it is not the Rust that does both.
pub fn kind_of_editions(Editions { build, run }: Editions) -> Option<String> {
    let told = is_edition(run) && (build, run) != (RUST, RUST);
    told.then(|| format!("built by {build} and run by {run}"))
}

/// What a run of the model has met: the slide that ended it, and the first thing that the first edition does otherwise.
pub fn kinds_of_end(end: &End) -> Vec<String> {
    let lost = end.lost.then(|| "a lost slide reached".to_string());
    let parting = end.parting.map(|(_, what)| format!("{what} as the first parting"));
    lost.into_iter().chain(parting).collect()
}

/// The question with one step or one byte of input less.
pub fn sooner(question: &Question) -> impl Iterator<Item = Question> + '_ {
    let sooner = question.limit.checked_sub(1).into_iter();
    let sooner = sooner.map(|limit| Question { limit, ..question.clone() });
    let rest = question.input.split_first().map(|(_, rest)| rest.to_vec()).into_iter();
    sooner.chain(rest.map(|input| Question { input, ..question.clone() }))
}

pub fn shown_terms(question: &Question) -> String {
    let Question { limit, is_abstract, room: Room { stack, outputs }, input, .. } = question;
    let (mode, input) = (*is_abstract as u8, hex(input));
    format!("limit {limit} mode {mode} input {input} stack {stack} outputs {outputs}")
}
