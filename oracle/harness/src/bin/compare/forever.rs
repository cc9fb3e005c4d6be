//! `determine_runs_forever`: tables by chance, and what is refused.
use crate::cases::{bits, check, pattern, Case, Checked, Outcome};
use crate::tables::{shown_picture, smaller_pictures, Spoil};
use harness::library;
use harness::picture::{build, Built, Picture};
use harness::random::Random;

const SEED: u64 = 5;
const BY_CHANCE: usize = 200_000;
const LONGEST: u32 = 6;

#[derive(Clone)]
struct Judging {
    picture: Picture,
    spoil: Spoil,
    answer: usize,
}

pub fn compare() -> Checked {
    let mut random = Random::seeded(SEED);
    check("forever", (0..BY_CHANCE).map(|_| by_chance(&mut random)))
}

fn by_chance(random: &mut Random) -> Judging {
    let picture = random.picture(LONGEST);
    let spoil = if random.one_in(4) { Spoil::by_chance(random) } else { Spoil::None };
    let answer = if random.one_in(16) { 0 } else { 1 + random.below(2) as usize };
    Judging { picture, spoil, answer }
}

fn outcome(number: u32, answer: &[u64]) -> Outcome {
    Outcome(vec![("number", vec![number.into()]), ("forever", bits(answer))])
}

impl Judging {
    fn expected(&self, built: &Built) -> Outcome {
        let mut answer = pattern(self.answer);
        if answer.is_empty() {
            return outcome(4, &answer);
        }
        answer[0] = match self.spoil {
            spoil if spoil.refused() => 0,
            Spoil::Unmarked => 1,
            _ => built.forever as u64,
        };
        outcome(if self.spoil.refused() { 10 } else { 0 }, &answer)
    }

    fn found(&self, built: &Built) -> Outcome {
        let mut answer = pattern(self.answer);
        let number = library::determine_runs_forever(&self.spoil.applied_to(built), &mut answer);
        outcome(number, &answer)
    }
}

impl Case for Judging {
    fn outcomes(&self) -> [Outcome; 2] {
        let built = build(&self.picture);
        [self.expected(&built), self.found(&built)]
    }

    fn smaller(&self) -> impl Iterator<Item = Self> {
        smaller_pictures(&self.picture).map(|picture| Judging { picture, ..*self })
    }

    fn shown(&self) -> String {
        format!("{} spoil {:?} answer {}", shown_picture(&self.picture), self.spoil, self.answer)
    }
}
