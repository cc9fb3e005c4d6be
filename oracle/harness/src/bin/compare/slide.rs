//! Slides over long white ways: the second edition's tables and runs of such pictures.
use crate::building::Building;
use crate::cases::{check, Checked};
use crate::modelled::Modelled;
use crate::picturing::{self, Palette, Picturing};
use crate::running::{self, Running};
use harness::editions::{Editions, PAGE, RUST};
use harness::numbers::palette;
use harness::picture::Picture;
use harness::question::Question;
use harness::random::Random;

const SEED: u64 = 17;
const MODELLED: usize = 100_000;
const BUILT: usize = 300_000;
const RUN: usize = 100_000;
const PICTURED: usize = 100_000;
const LARGE: usize = 2_000;
const LONGEST: u32 = 21;
const LONGEST_OF_LARGE: u32 = 100;
const MOST_STEPS: u32 = 60;

pub fn compare() -> Checked {
    let (mut random, palette) = (Random::seeded(SEED), palette());
    let modelled = (0..MODELLED).map(|_| Modelled(question(&mut random)));
    let mut counts = check("slide, the model itself", modelled)?;
    let built = (0..BUILT).map(|_| building(&mut random, LONGEST));
    counts = counts.and(check("slide, build", built)?);
    counts = counts.and(check("slide, run", (0..RUN).map(|_| running(&mut random)))?);
    let pictured = (0..PICTURED).map(|_| picturing(&mut random, &palette));
    counts = counts.and(check("slide, picture", pictured)?);
    let large = (0..LARGE).map(|_| building(&mut random, LONGEST_OF_LARGE));
    Ok(counts.and(check("slide, build, large", large)?))
}

fn question(random: &mut Random) -> Question {
    let picture = random.white_ways(LONGEST);
    let limit = random.below(MOST_STEPS + 1) as u64;
    Question { limit, ..running::question(random, picture) }
}

fn building(random: &mut Random, longest: u32) -> Building {
    let Picture { height, width, codel, colours } = random.white_ways(longest);
    let more = [(); 4].map(|()| random.below(4) as usize);
    let case = Building::roomy(height as usize, width as usize, codel as usize, colours, more);
    Building { edition: PAGE, ..case }
}

/// In the second edition; some by the first, over a table of the second.
fn running(random: &mut Random) -> Running {
    let question = question(random);
    let run = if random.one_in(8) { RUST } else { PAGE };
    running::lent_by_chance(random, question, Editions { build: PAGE, run })
}

fn picturing(random: &mut Random, palette: &Palette) -> Picturing {
    let building = building(random, LONGEST);
    let mut case = picturing::with_a_run(random, building, palette);
    case.question.limit = random.below(MOST_STEPS + 1) as u64;
    case
}
