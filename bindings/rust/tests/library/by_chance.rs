//! Pictures by chance: one call for a picture is classifying, building and running, one after the other.
use crate::support::{counted, kept, pixel, row_of, Slices, UNKNOWN};
use piet::{
    build, classify, run, run_picture, run_pixels, Attempt, Cells, Colour, Edition, Error, Instruction,
    Picture, Pictured, Refusal, Shape, Skipped, Table, Terms, Told, Unknown, EXITS, ROW,
};
use std::collections::BTreeSet;

const PICTURES: u64 = 40_000;

/// SplitMix64.
struct Chance(u64);

impl Chance {
    fn next(&mut self) -> u64 {
        self.0 = self.0.wrapping_add(0x9E37_79B9_7F4A_7C15);
        let mut mixed = self.0;
        mixed = (mixed ^ (mixed >> 30)).wrapping_mul(0xBF58_476D_1CE4_E5B9);
        mixed = (mixed ^ (mixed >> 27)).wrapping_mul(0x94D0_49BB_1331_11EB);
        mixed ^ (mixed >> 31)
    }

    fn below(&mut self, bound: usize) -> usize {
        (self.next() % bound as u64) as usize
    }

    /// True once in so many times.
    fn once_in(&mut self, times: usize) -> bool {
        self.below(times) == 0
    }

    fn one_of<T: Copy>(&mut self, all: &[T]) -> T {
        all[self.below(all.len())]
    }
}

/// What one question is made of.
struct Question {
    pixels: Vec<u8>,
    shape: Shape,
    unknown: Unknown,
    edition: Edition,
    limit: u64,
    abstract_mode: bool,
    input: &'static [u8],
    cells: Cells,
}

impl Question {
    fn by(chance: &mut Chance) -> Self {
        let shape = Shape {
            height: if chance.once_in(64) { 0 } else { 1 + chance.below(6) },
            width: if chance.once_in(64) { 1_025 } else { 1 + chance.below(9) },
            codel: if chance.once_in(32) { 0 } else { 1 + chance.below(3) },
        };
        let inputs = [
            &b""[..],
            b"5\n-7\n",
            b"+1\n\nx\n\xC3\xA9\n",
            b"3\n\xFF\n",
            b" 12\n12",
            b"9223372036854775808\n-\n \n4",
        ];
        Question {
            pixels: painted(shape, chance),
            shape,
            unknown: chance.one_of(&Unknown::ALL),
            edition: chance.one_of(&Edition::ALL),
            limit: chance.below(60) as u64,
            abstract_mode: chance.once_in(4),
            input: chance.one_of(&inputs),
            cells: Cells { stack: chance.below(8), outputs: chance.below(4) },
        }
    }

    fn picture(&self) -> Picture<'_> {
        Picture { pixels: &self.pixels, shape: self.shape, unknown: self.unknown }
    }

    fn terms(&self) -> Terms<'_> {
        Terms { limit: self.limit, abstract_mode: self.abstract_mode, input: self.input }
    }

    fn told(&self) -> Result<Told, Error> {
        run_pixels(self.picture(), self.edition, self.terms(), self.cells)
    }
}

/// Pixels of a few colours; sometimes one is unknown, or a byte is missing.
fn painted(shape: Shape, chance: &mut Chance) -> Vec<u8> {
    let mut palette: Vec<_> = (0..2 + chance.below(5)).map(|_| pixel(chance.one_of(&Colour::ALL))).collect();
    palette.extend(chance.once_in(2).then(|| pixel(Colour::White)));
    palette.extend(chance.once_in(2).then(|| pixel(Colour::Black)));
    let mut pixels: Vec<_> = (0..shape.height * shape.width).map(|_| chance.one_of(&palette)).collect();
    if chance.once_in(8) && !pixels.is_empty() {
        let at = chance.below(pixels.len());
        pixels[at] = UNKNOWN;
    }
    let mut bytes = pixels.concat();
    if chance.once_in(64) {
        bytes.pop();
    }
    bytes
}

/// A picture's room, in which sometimes a cell is missing.
fn room(question: &Question, chance: &mut Chance) -> Slices {
    let mut slices = Slices::of(question.shape, question.cells);
    if chance.once_in(32) {
        slices.colours.pop();
    }
    if chance.once_in(32) {
        slices.table[chance.below(4)].pop();
    }
    slices
}

fn in_three_calls(question: &Question, slices: &mut Slices) -> Result<Pictured, Refusal> {
    let Shape { height, width, .. } = question.shape;
    classify(&question.pixels, (height, width), question.unknown, &mut slices.colours)?;
    let colours = slices.colours[..height * width].to_vec();
    let regions = build(&colours, question.shape, question.edition, slices.lent().table)?;
    let built = slices.clone();
    let ended = run(built.table(regions), question.edition, question.terms(), slices.lent().run)?;
    Ok(Pictured { ended, regions })
}

/// The three calls, with every slice as it was where one of them is refused.
fn expected(question: &Question, before: &Slices) -> (Result<Pictured, Refusal>, Slices) {
    let mut slices = before.clone();
    match in_three_calls(question, &mut slices) {
        Ok(pictured) => (Ok(pictured), slices),
        Err(refusal) => (Err(refusal), before.clone()),
    }
}

#[test]
fn a_picture_in_one_call() {
    let (mut chance, mut met) = (Chance(7), BTreeSet::new());
    for _ in 0..PICTURES {
        let question = Question::by(&mut chance);
        let before = room(&question, &mut chance);
        let mut slices = before.clone();
        let answer = run_picture(question.picture(), question.edition, question.terms(), slices.lent());
        assert_eq!((answer, slices), expected(&question, &before));
        met.insert(answer.map(|pictured| pictured.ended.status.number()).map_err(Refusal::number));
    }
    let statuses = (1..=6).map(Ok);
    let refusals = [1, 2, 4, 5, 6, 9].map(Err);
    assert_eq!(met, statuses.chain(refusals).collect());
}

#[test]
fn a_picture_with_the_room_made() {
    let mut chance = Chance(8);
    for _ in 0..PICTURES {
        let question = Question::by(&mut chance);
        let told = question.told();
        let (answer, slices) = expected(&question, &Slices::of(question.shape, question.cells));
        let told = match (answer, told) {
            (Ok(pictured), Ok(told)) => (pictured, told),
            (refused, told) => {
                assert_eq!(told.unwrap_err(), Error::Refused(refused.unwrap_err()));
                continue;
            }
        };
        told_is(told, &slices);
    }
}

/// Where edition 1 has an exit, edition 2 has the same one, and its nodes are nodes of edition 2. Some slides are lost.
#[test]
fn tables_of_both_editions() {
    let (mut chance, mut lost) = (Chance(10), 0);
    for _ in 0..PICTURES {
        let mut question = Question::by(&mut chance);
        let [(of_rust, rust), (of_page, page)] = Edition::ALL.map(|edition| {
            question.edition = edition;
            let mut slices = Slices::of(question.shape, question.cells);
            (in_three_calls(&question, &mut slices).map(|pictured| pictured.regions), slices)
        });
        assert_eq!(of_rust, of_page);
        if of_rust.is_ok() {
            lost += lost_slides(&rust.table, &page.table);
        }
    }
    assert!(lost > 100, "{lost} slides are lost");
}

/// How many slides are lost in the table of edition 2 alone.
fn lost_slides(rust: &[Vec<u32>; 4], page: &[Vec<u32>; 4]) -> usize {
    let [[map, rows, exits, work], [page_map, page_rows, page_exits, page_work]] = [rust, page];
    assert_eq!((map, work), (page_map, page_work));
    for (row, page_row) in rows.chunks(ROW).zip(page_rows.chunks(ROW)) {
        assert!(row[..4] == page_row[..4] && row[4] <= page_row[4]);
    }
    assert!(exits.iter().zip(page_exits).all(|(&exit, &page_exit)| exit == 0 || exit == page_exit));
    let lost = |exits: &[u32]| exits.iter().filter(|&&exit| exit == Attempt::Lost.cell()).count();
    assert_eq!(lost(exits), 0);
    lost(page_exits)
}

fn told_is((Pictured { ended, regions }, told): (Pictured, Told), slices: &Slices) {
    assert_eq!((told.ended, told.regions), (ended, regions));
    assert_eq!(told.stack, slices.stack[..ended.depth]);
    assert_eq!(told.outputs, slices.outputs(ended.outputs));
    let region = slices.table(regions).region(ended.region).unwrap();
    assert_eq!(told.region, region);
}

/// No more lines are skipped than steps are taken, and none in abstract mode; every reason is met.
#[test]
fn skipped_lines() {
    let (mut chance, mut met) = (Chance(9), [0; 4]);
    for _ in 0..PICTURES {
        let question = Question::by(&mut chance);
        let Ok(told) = question.told() else { continue };
        let Skipped { ended, blank, not_number, out_of_range } = told.ended.skipped;
        let counts = [ended, blank, not_number, out_of_range];
        let most = if question.abstract_mode { 0 } else { told.ended.steps };
        assert!(counts.iter().sum::<u64>() <= most);
        met.iter_mut().zip(counts).for_each(|(sum, count)| *sum += count);
    }
    assert!(met.iter().all(|&sum| sum > 100), "met {met:?}");
}

/// The regions that a run enters in so many steps: under each smaller limit it stops in one of them.
fn entered(table: Table, question: &Question, steps: u64) -> Vec<usize> {
    let under = |limit| {
        let mut slices = Slices::of(row_of(0), question.cells);
        run(table, question.edition, Terms { limit, ..question.terms() }, slices.lent().run).unwrap().region
    };
    (0..=steps).map(under).collect()
}

/// Each region is counted as often as the run enters it. Regions are met that are entered never, once and more often,
/// and nodes that never are.
#[test]
fn visits_of_a_run() {
    let (mut chance, mut met, mut listed) = (Chance(11), [0; 3], 0);
    for _ in 0..PICTURES {
        let question = Question::by(&mut chance);
        let mut slices = Slices::of(question.shape, question.cells);
        let Ok(Pictured { ended, regions }) = in_three_calls(&question, &mut slices) else { continue };
        let table = slices.table(regions);
        let mut expected = vec![0; regions];
        entered(table, &question, ended.steps).into_iter().for_each(|region| expected[region] += 1);
        let (visited, counts, _) = counted(table, question.edition, question.terms(), question.cells);
        assert_eq!((visited.ended, &counts), (ended, &expected));
        counts.iter().for_each(|&count| met[count.min(2) as usize] += 1);
        listed += visited.unvisited;
    }
    assert!(met.into_iter().chain([listed]).all(|times| times > 1_000), "met {met:?}, listed {listed}");
}

/// Each exit is one of the region that the one before it led to, and under a smaller limit as many of them are taken.
/// Slides are met, and every instruction.
#[test]
fn history_of_a_run() {
    let (mut chance, mut met) = (Chance(12), BTreeSet::new());
    for _ in 0..PICTURES {
        let question = Question::by(&mut chance);
        let mut slices = Slices::of(question.shape, question.cells);
        let Ok(Pictured { ended, regions }) = in_three_calls(&question, &mut slices) else { continue };
        let table = slices.table(regions);
        let (_, taken) = kept(table, question.edition, question.terms(), question.cells);
        let mut left = 0;
        for exit in &taken {
            assert!(table.exits[EXITS * left..][..EXITS].contains(&exit.cell()));
            left = usize::from(exit.target);
            met.insert(exit.instruction.number());
        }
        assert_eq!((left, taken.len() as u64), (ended.region, ended.steps));
        for limit in 0..ended.steps {
            let terms = Terms { limit, ..question.terms() };
            let first = table.history(question.edition, terms, question.cells, usize::MAX).unwrap();
            assert_eq!(first.taken, taken[..limit as usize]);
        }
    }
    assert_eq!(met, Instruction::ALL.map(|instruction| instruction.number()).into());
}
