//! The second edition against its model.
use crate::building::{self, large, over_colours, Building};
use crate::cases::{check, Checked, NO_EDITION};
use crate::modelled::Modelled;
use crate::picturing::{self, Picturing};
use crate::questions::{pale, question};
use crate::running::{self, Running};
use harness::editions::{Editions, PAGE, RUST};
use harness::numbers::palette;
use harness::question::Question;
use harness::random::Random;

const SEED: u64 = 16;
const MODELLED: usize = 200_000;
const BUILT: usize = 400_000;
const RUN: usize = 600_000;
const PICTURED: usize = 200_000;
const LONGEST: u32 = 8;

/// Red, light red, white, black.
const FOUR: [u8; 4] = [6, 12, 19, 18];

const SIDES: [(usize, usize); 11] =
    [(1, 1), (1, 2), (1, 3), (2, 1), (2, 2), (2, 3), (3, 1), (3, 2), (2, 4), (4, 2), (3, 3)];

pub fn compare() -> Checked {
    let (mut random, palette) = (Random::seeded(SEED), palette());
    let by_page = |case| Building { edition: PAGE, ..case };
    let modelled = (0..MODELLED).map(|_| Modelled(question(&mut random)));
    let mut counts = check("page, the model itself", modelled)?;
    let small = SIDES.into_iter().flat_map(|sides| over_colours(&FOUR, sides));
    counts = counts.and(check("page, build, small", small.map(by_page))?);
    counts = counts.and(check("page, build, large", large().map(by_page))?);
    let built = (0..BUILT).map(|_| building(&mut random));
    counts = counts.and(check("page, build, by chance", built)?);
    counts = counts.and(check("page, run", (0..RUN).map(|_| running(&mut random)))?);
    let large = large().map(|b| picturing::with_a_run(&mut random, by_page(b), &palette));
    counts = counts.and(check("page, picture, large", large)?);
    let pictured = (0..PICTURED).map(|_| picturing(&mut random, &palette));
    Ok(counts.and(check("page, picture, by chance", pictured)?))
}

fn building(random: &mut Random) -> Building {
    let picture = if random.one_in(4) { random.picture(LONGEST) } else { pale(random) };
    building::lent_by_chance(random, picture, PAGE)
}

/// Mostly built and run by the second edition, else built or run by the first, or by none.
fn running(random: &mut Random) -> Running {
    let question = question(random);
    let (build, run) = match random.below(16) {
        0..=10 => (PAGE, PAGE),
        11 | 12 => (RUST, PAGE),
        13 | 14 => (PAGE, RUST),
        _ => (PAGE, random.pick(&NO_EDITION)),
    };
    running::lent_by_chance(random, question, Editions { build, run })
}

fn picturing(random: &mut Random, palette: &picturing::Palette) -> Picturing {
    let Question { picture, input, .. } = question(random);
    let mut case = picturing::lent_by_chance(random, picture, PAGE, palette);
    case.question.input = input;
    case
}
