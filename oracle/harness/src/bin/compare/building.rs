//! Building: every small picture, each change of colour, pictures by chance, the largest ones, and what is refused.
use crate::cases::{
    bits, check, hex, is_edition, over, pattern, relent, wide, without_lines, Case, Checked, Named,
    Outcome, NO_EDITION,
};
use harness::editions::{self, PAGE, RUST};
use harness::library::{self, Lent};
use harness::page::{self, LOST};
use harness::picture::{Built, Picture};
use harness::random::Random;

const SEED: u64 = 4;
const BY_CHANCE: usize = 1_000_000;
const LONGEST: u32 = 9;
pub const FAR: [usize; 4] = [0, 1_025, (1 << 32) + 1, usize::MAX];

/// Red, light red, yellow, white, black.
const FIVE: [u8; 5] = [6, 12, 7, 19, 18];

#[derive(Clone)]
pub struct Building {
    pub height: usize,
    pub width: usize,
    pub codel: usize,
    pub edition: u32,
    pub colours: Vec<u8>,
    /// lengths of map, rows, exits and work
    pub lent: [usize; 4],
    pub answer: usize,
}

pub fn compare() -> Checked {
    let small = SIDES.into_iter().flat_map(|sides| over_colours(&FIVE, sides));
    let twenty: Vec<u8> = (0..20).collect();
    let changes = [(1, 2), (2, 1)].into_iter().flat_map(|sides| over_colours(&twenty, sides));
    let counts = check("build, small", small)?.and(check("build, each change", changes)?);
    let counts = counts.and(check("build, large", large())?);
    let mut random = Random::seeded(SEED);
    Ok(counts.and(check("build, by chance", (0..BY_CHANCE).map(|_| by_chance(&mut random)))?))
}

const SIDES: [(usize, usize); 8] = [(1, 1), (1, 2), (1, 3), (2, 1), (2, 2), (2, 3), (3, 1), (3, 2)];

/// Every picture of these sides over these colours.
pub fn over_colours(
    few: &[u8],
    (height, width): (usize, usize),
) -> impl Iterator<Item = Building> + '_ {
    let (count, base) = (height * width, few.len());
    let colour = move |word: usize, at: usize| few[word / base.pow(at as u32) % base];
    (0..base.pow(count as u32)).map(move |word| {
        let colours = (0..count).map(|at| colour(word, at)).collect();
        Building::roomy(height, width, 1, colours, [1; 4])
    })
}

/// At the bounds of sides, codel width and codels.
pub fn large() -> impl Iterator<Item = Building> {
    let shapes = [
        (1_024, 1_024, 4),
        (1_024, 1_024, 1_024),
        (1_023, 1_024, 1_023),
        (256, 256, 1),
        (64, 1_024, 1),
        (1_024, 64, 1),
        (1_024, 1, 1),
        (1, 1_024, 1),
        (257, 256, 1),
        (1_024, 1_024, 3),
        (1_024, 1_024, 1),
    ];
    shapes.into_iter().flat_map(|(height, width, codel)| {
        [[6, 6, 6], [6, 19, 19], [18, 7, 12]].map(|three| {
            let stripe = |at: usize| three[(at / width / 96 + at % width / 160) % 3];
            let colours = (0..height * width).map(stripe).collect();
            Building::roomy(height, width, codel, colours, [1; 4])
        })
    })
}

fn by_chance(random: &mut Random) -> Building {
    let picture = random.picture(LONGEST);
    lent_by_chance(random, picture, RUST)
}

/// In room that is mostly ample, and with what is refused.
pub fn lent_by_chance(random: &mut Random, picture: Picture, edition: u32) -> Building {
    let Picture { height, width, codel, colours } = picture;
    let more = [(); 4].map(|()| random.below(4) as usize);
    let case = Building::roomy(height as usize, width as usize, codel as usize, colours, more);
    let mut case = Building { edition, ..case };
    while random.one_in(5) {
        spoil(&mut case, random);
    }
    case
}

fn spoil(case: &mut Building, random: &mut Random) {
    match random.below(10) {
        0 => case.height = random.pick(&FAR),
        1 => case.width = random.pick(&FAR),
        2 => case.codel = random.pick(&FAR),
        3 => {
            (case.height, case.width, case.codel) = random.pick(&[(257, 256, 1), (1_024, 1_024, 3)])
        }
        4 => case.colours.resize(random.below(82) as usize, 6),
        5 => spoil_colour(&mut case.colours, random),
        6 => spoil_first(&mut case.colours),
        7 => shorten(&mut case.lent[random.below(4) as usize], random),
        8 => case.edition = random.pick(&NO_EDITION),
        _ => case.answer = random.below(2) as usize,
    }
}

pub fn shorten(length: &mut usize, random: &mut Random) {
    *length = length.saturating_sub(1 + random.below(4) as usize);
}

fn spoil_colour(colours: &mut [u8], random: &mut Random) {
    if !colours.is_empty() {
        colours[random.below(colours.len() as u32) as usize] = random.pick(&[20, 21, 255]);
    }
}

fn spoil_first(colours: &mut [u8]) {
    if let Some(first) = colours.first_mut() {
        *first = 19;
    }
}

impl Building {
    /// In the first edition, with so much more than the needed room, and one answer cell more.
    pub fn roomy(
        height: usize,
        width: usize,
        codel: usize,
        colours: Vec<u8>,
        more: [usize; 4],
    ) -> Self {
        let edition = RUST;
        let mut case = Building { height, width, codel, edition, colours, lent: more, answer: 3 };
        let needed = needed(case.codels());
        for (length, needed) in case.lent.iter_mut().zip(needed) {
            *length += needed;
        }
        case
    }

    fn codels(&self) -> usize {
        let codel = self.codel.max(1);
        self.height.div_ceil(codel).saturating_mul(self.width.div_ceil(codel))
    }

    /// The other case, with room that is short or ample by as much as here.
    pub fn relent(&self, other: Self) -> Self {
        let [needed, now] = [self.codels(), other.codels()].map(needed);
        let length = |i: usize| relent(self.lent[i], needed[i], now[i]);
        Building { lent: [0, 1, 2, 3].map(length), ..other }
    }

    /// The table, or the number and the place. Where the picture is one, the Rust judges it, or the model.
    pub fn judged(&self) -> Result<Built, (u32, usize)> {
        if !is_edition(self.edition) {
            return Err((15, 0));
        }
        let sides = 1..=1_024;
        if !sides.contains(&self.height) || !sides.contains(&self.width) {
            return Err((1, 0));
        }
        if !sides.contains(&self.codel) {
            return Err((6, 0));
        }
        if self.codels() > 65_536 {
            return Err((7, 0));
        }
        if self.colours.len() != self.height * self.width {
            return Err((2, 0));
        }
        if let Some(at) = self.colours.iter().position(|&c| c > 19) {
            return Err((8, at));
        }
        let built = editions::table(&self.picture(), self.edition).ok_or((9, 0))?;
        let short = self.lent.iter().zip(needed(self.codels())).any(|(&has, needs)| has < needs);
        if short {
            Err((4, 0))
        } else {
            Ok(built)
        }
    }

    pub fn picture(&self) -> Picture {
        let [height, width, codel] = [self.height, self.width, self.codel].map(|n| n as u32);
        Picture { height, width, codel, colours: self.colours.clone() }
    }

    pub fn lent(&self) -> Lent {
        let [map, rows, exits, work] = self.lent.map(pattern);
        Lent { map, rows, exits, work }
    }
}

/// The room of map, rows, exits and work.
fn needed(codels: usize) -> [usize; 4] {
    [1, 5, 8, 1].map(|cells| codels.saturating_mul(cells))
}

/// What building leaves: the cells past the regions are 0 up to the needed room.
pub fn write(built: &Built, lent: &mut Lent) {
    let [_, rows, exits, work] = needed(built.map.len());
    lent.rows[..rows].fill(0);
    lent.exits[..exits].fill(0);
    lent.work[..work].fill(0);
    over(&built.map, &mut lent.map);
    over(built.rows.as_flattened(), &mut lent.rows);
    over(built.exits.as_flattened(), &mut lent.exits);
}

fn outcome(number: u32, answer: &[u64], lent: &Lent) -> Outcome {
    let told = [("number", vec![number.into()]), ("answer", bits(answer))];
    Outcome(told.into_iter().chain(cells(lent)).collect())
}

/// Every cell that building is lent.
pub fn cells(lent: &Lent) -> [Named; 4] {
    [
        ("map", wide(&lent.map)),
        ("rows", wide(&lent.rows)),
        ("exits", wide(&lent.exits)),
        ("work", wide(&lent.work)),
    ]
}

impl Building {
    fn expected(&self) -> Outcome {
        let (mut lent, mut answer) = (self.lent(), pattern(self.answer));
        if answer.len() < 2 {
            return outcome(4, &answer, &lent);
        }
        let (number, cells) = match self.judged() {
            Err((number, place)) => (number, [0, place]),
            Ok(built) => {
                write(&built, &mut lent);
                (0, [built.rows.len(), 0])
            }
        };
        over(&cells.map(|c| c as u64), &mut answer);
        outcome(number, &answer, &lent)
    }

    fn found(&self) -> Outcome {
        let (mut lent, mut answer) = (self.lent(), pattern(self.answer));
        let sides = (self.height, self.width, self.codel);
        let number = library::build(&self.colours, sides, self.edition, &mut lent, &mut answer);
        outcome(number, &answer, &lent)
    }
}

/// What slides there are in the second edition's table: lost ones, long ones, and such as alone lead to a node.
pub fn kinds_of_slides(picture: &Picture) -> Vec<String> {
    let grid = editions::grid(picture);
    let tables = [page::build(&grid), page::build_short(&grid)];
    let [all, short] = tables.map(|table| table.expect("an entry that is not white"));
    let is_long = |r: usize| short.rows[r][4] == 1 && short.exits[r] != all.exits[r];
    let kinds = [
        ("a lost slide in the table", all.exits.as_flattened().contains(&LOST)),
        ("a long slide in the table", (0..all.rows.len()).any(is_long)),
        ("a node by long slides alone", all.rows != short.rows),
    ];
    kinds.iter().filter(|(_, there)| *there).map(|(kind, _)| kind.to_string()).collect()
}

impl Case for Building {
    fn outcomes(&self) -> [Outcome; 2] {
        [self.expected(), self.found()]
    }

    fn kinds(&self, expected: &Outcome) -> Vec<String> {
        let is_page = expected.list("number") == [0] && self.edition == PAGE;
        let slides = if is_page { kinds_of_slides(&self.picture()) } else { vec![] };
        [vec![expected.number_returned()], slides].concat()
    }

    fn smaller(&self) -> impl Iterator<Item = Self> {
        let lesser = without_lines(self.height, self.width, &self.colours);
        let lesser = lesser.map(|(height, width, colours)| {
            self.relent(Building { height, width, colours, ..self.clone() })
        });
        let finer = (self.codel > 1).then(|| self.relent(Building { codel: 1, ..self.clone() }));
        lesser.chain(finer)
    }

    fn shown(&self) -> String {
        let Building { height, width, codel, edition, lent, answer, .. } = self;
        let colours = hex(&self.colours);
        format!("height {height} width {width} codel {codel} edition {edition} colours {colours} lent {lent:?} answer {answer}")
    }
}
