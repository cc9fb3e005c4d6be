//! The whole run of a picture in one call: by chance, at the bounds, and what is refused, in its order.
use crate::building::{self, Building, FAR};
use crate::cases::{
    bits, check, is_edition, over, pattern, wide, Case, Checked, Outcome, NO_EDITION,
};
use crate::classify::{self, blurred, Classifying};
use crate::running::{self, kinds_of_end, longer, question, shown_terms, sooner, Longer};
use harness::editions::{Left, PAGE, RUST};
use harness::library::{self, Whole, PICTURE_ANSWER};
use harness::machine::Terms;
use harness::numbers::palette;
use harness::picture::{Built, Picture};
use harness::question::Question;
use harness::random::Random;

const SEED: u64 = 8;
const BY_CHANCE: usize = 500_000;
const LONGEST: u32 = 8;
const RED: u8 = 6;
const WHITE: usize = 19;

pub type Palette = [[u8; 3]; 20];

#[derive(Clone)]
pub struct Picturing {
    /// the pixels with their sides and setting, and the lengths of colours and answer
    classifying: Classifying,
    codel: usize,
    edition: u32,
    /// lengths of map, rows, exits and work
    lent: [usize; 4],
    /// the run, but for its picture, which classifying gives
    pub question: Question,
    longer: Longer,
}

pub fn compare() -> Checked {
    let (mut random, palette) = (Random::seeded(SEED), palette());
    let large = building::large().map(|b| with_a_run(&mut random, b, &palette));
    let counts = check("picture, large", large)?;
    let cases = (0..BY_CHANCE).map(|_| by_chance(&mut random, &palette));
    Ok(counts.and(check("picture, by chance", cases)?))
}

/// The case of building with its colours as pixels, and a run by chance.
pub fn with_a_run(random: &mut Random, building: Building, palette: &Palette) -> Picturing {
    let Building { height, width, codel, edition, colours, lent, .. } = building;
    let pixels = colours.iter().flat_map(|&c| palette[c as usize]).collect();
    let room = height * width + random.below(3) as usize;
    let answer = PICTURE_ANSWER + random.below(3) as usize;
    let setting = random.below(4) as u8;
    let classifying = Classifying { height, width, setting, pixels, colours: room, answer };
    let none = Picture { height: 0, width: 0, codel: 0, colours: vec![] };
    let (question, longer) = (question(random, none), longer(random));
    Picturing { classifying, codel, edition, lent, question, longer }
}

fn by_chance(random: &mut Random, palette: &Palette) -> Picturing {
    let picture = if random.one_in(8) { random.picture(LONGEST) } else { running::picture(random) };
    lent_by_chance(random, picture, RUST, palette)
}

/// In room that is mostly ample, and with what is refused.
pub fn lent_by_chance(
    random: &mut Random,
    picture: Picture,
    edition: u32,
    palette: &Palette,
) -> Picturing {
    let [height, width, codel] = [picture.height, picture.width, picture.codel].map(|n| n as usize);
    let more = [(); 4].map(|()| random.below(4) as usize);
    let building = Building::roomy(height, width, codel, picture.colours, more);
    let mut case = with_a_run(random, Building { edition, ..building }, palette);
    blur(&mut case.classifying, random);
    while random.one_in(6) {
        spoil(&mut case, random, palette);
    }
    case
}

/// In some pictures pixels that are none of the twenty.
fn blur(case: &mut Classifying, random: &mut Random) {
    let strange = random.pick(&[0, 0, 0, 8, 64]);
    for pixel in case.pixels.as_chunks_mut::<3>().0 {
        *pixel = blurred(random, *pixel, strange);
    }
}

fn spoil(case: &mut Picturing, random: &mut Random, palette: &Palette) {
    match random.below(9) {
        0..=2 => classify::spoil(&mut case.classifying, random),
        3 => case.codel = random.pick(&FAR),
        4 => over_first(&mut case.classifying.pixels, palette[WHITE]),
        5 if random.one_in(16) => *case = with_a_run(random, too_fine(case.edition), palette),
        5 | 6 => building::shorten(&mut case.lent[random.below(4) as usize], random),
        7 => case.edition = random.pick(&NO_EDITION),
        _ => case.classifying.answer = random.below(PICTURE_ANSWER as u32) as usize,
    }
}

fn over_first(pixels: &mut [u8], pixel: [u8; 3]) {
    if pixels.len() >= 3 {
        over(&pixel, pixels);
    }
}

/// One row of codels too many.
fn too_fine(edition: u32) -> Building {
    Building { edition, ..Building::roomy(257, 256, 1, vec![RED; 257 * 256], [0; 4]) }
}

impl Picturing {
    /// What building is asked once the pixels are these colours.
    fn building(&self, colours: Vec<u8>) -> Building {
        let Classifying { height, width, answer, .. } = self.classifying;
        let Picturing { codel, edition, lent, .. } = *self;
        Building { height, width, codel, edition, colours, lent, answer }
    }

    /// The table with its picture, or the number and the place: the edition, the tests of classifying, then those of
    /// building.
    fn judged(&self) -> Result<(Built, Picture), (u32, [usize; 2])> {
        if !is_edition(self.edition) {
            return Err((15, [0, 0]));
        }
        let (number, place) = self.classifying.judged();
        if number != 0 {
            return Err((number, place));
        }
        let building = self.building(self.classifying.classified().flatten().collect());
        let built = building.judged().map_err(|(number, _)| (number, [0, 0]))?;
        Ok((built, building.picture()))
    }

    fn lent(&self) -> (Whole, Vec<u64>) {
        let Classifying { colours, answer, .. } = self.classifying;
        let table = self.building(vec![]).lent();
        let space = running::space(&self.question.room, self.longer);
        (Whole { colours: pattern(colours), table, space }, pattern(answer))
    }

    fn refused(&self, number: u32, place: [usize; 2]) -> Outcome {
        let (lent, mut answer) = self.lent();
        if let Some(cells) = answer.first_chunk_mut::<PICTURE_ANSWER>() {
            *cells = [0; PICTURE_ANSWER];
            over(&place.map(|p| p as u64), cells);
            return outcome(number, &answer, &lent);
        }
        outcome(4, &answer, &lent)
    }

    fn done(&self, built: &Built, picture: &Picture, left: &Left) -> Outcome {
        let (mut lent, mut answer) = self.lent();
        if answer.len() < PICTURE_ANSWER {
            return outcome(4, &answer, &lent);
        }
        over(&picture.colours, &mut lent.colours);
        building::write(built, &mut lent.table);
        running::write(left, &mut lent.space);
        over(&left.numbers, &mut answer);
        answer[PICTURE_ANSWER - 1] = built.rows.len() as u64;
        outcome(0, &answer, &lent)
    }

    fn found(&self, limit: u64) -> Outcome {
        let (mut lent, mut answer) = self.lent();
        let Classifying { height, width, setting, ref pixels, .. } = self.classifying;
        let Question { is_abstract, ref input, .. } = self.question;
        let (sides, terms) = ((height, width, self.codel), Terms { limit, is_abstract, input });
        let read = (setting, self.edition);
        let number = library::run_picture(pixels, sides, read, &terms, &mut lent, &mut answer);
        outcome(number, &answer, &lent)
    }

    /// Other pixels or codels, with room that is short or ample by as much as here.
    fn relent(&self, classifying: Classifying, codel: usize) -> Self {
        let other = Picturing { classifying, codel, ..self.clone() };
        let lent = self.building(vec![]).relent(other.building(vec![])).lent;
        Picturing { lent, ..other }
    }
}

fn outcome(number: u32, answer: &[u64], lent: &Whole) -> Outcome {
    let mut lists = vec![
        ("number", vec![number.into()]),
        ("answer", bits(answer)),
        ("colours", wide(&lent.colours)),
    ];
    lists.extend(building::cells(&lent.table));
    lists.extend(running::cells(&lent.space));
    Outcome(lists)
}

impl Case for Picturing {
    /// Where the Rust panics and the rules choose, the run is asked up to there only.
    fn outcomes(&self) -> [Outcome; 2] {
        let (built, picture) = match self.judged() {
            Err((number, place)) => {
                return [self.refused(number, place), self.found(self.question.limit)]
            }
            Ok(judged) => judged,
        };
        if self.edition == PAGE {
            let left = Left::by_page(&built.run_by_page(&self.question));
            return [self.done(&built, &picture, &left), self.found(self.question.limit)];
        }
        let ran = self.question.judged(&built);
        let limit = if ran.panic.is_some() { ran.answer.steps } else { self.question.limit };
        [self.done(&built, &picture, &Left::by_rust(&built, &ran)), self.found(limit)]
    }

    fn kinds(&self, expected: &Outcome) -> Vec<String> {
        let mut kinds = expected.kinds_of_run();
        if expected.list("number") == [0] && self.edition == PAGE {
            let picture = self.judged().ok().map(|(_, picture)| picture);
            let question = picture.map(|picture| Question { picture, ..self.question.clone() });
            kinds.extend(question.and_then(|q| q.walked()).iter().flat_map(kinds_of_end));
        }
        kinds
    }

    fn smaller(&self) -> impl Iterator<Item = Self> {
        let lesser = self.classifying.smaller().map(|c| self.relent(c, self.codel));
        let finer = (self.codel > 1).then(|| self.relent(self.classifying.clone(), 1));
        let sooner = sooner(&self.question);
        let sooner = sooner.map(|question| Picturing { question, ..self.clone() });
        lesser.chain(finer).chain(sooner)
    }

    fn shown(&self) -> String {
        let Picturing { classifying, codel, edition, lent, question, longer } = self;
        let (pixels, terms) = (classifying.shown(), shown_terms(question));
        format!("{pixels} codel {codel} edition {edition} table {lent:?} {terms} longer {longer:?}")
    }
}
