//! Classifying: every pixel there is, and small pictures with what is refused.
use crate::cases::{
    bits, check, hex, over, pattern, relent, wide, without_lines, Case, Checked, Outcome,
};
use harness::library;
use harness::numbers::{classify, palette};
use harness::random::Random;

const SEED: u64 = 3;
const BY_CHANCE: usize = 300_000;
const LONGEST: u32 = 9;
const FAR: [usize; 4] = [0, 1_025, (1 << 32) + 1, usize::MAX];

#[derive(Clone)]
pub struct Classifying {
    pub height: usize,
    pub width: usize,
    pub setting: u8,
    pub pixels: Vec<u8>,
    /// lengths
    pub colours: usize,
    pub answer: usize,
}

pub fn compare() -> Checked {
    let whole = check("classify, every pixel", [0, 2, 3].into_iter().flat_map(every_pixel))?;
    let each = check("classify, every pixel alone, setting 1", (0..1 << 24).map(alone))?;
    let (mut random, palette) = (Random::seeded(SEED), palette());
    let small = (0..BY_CHANCE).map(|_| by_chance(&mut random, &palette));
    let small = check("classify, by chance", small)?;
    let runs = (0..BY_CHANCE).map(|_| in_runs(&mut random, &palette));
    Ok(whole.and(each).and(small).and(check("classify, in runs", runs)?))
}

/// One pixel, under the setting that refuses unknown ones: a picture is refused at the first.
fn alone(number: u32) -> Classifying {
    let pixels = number.to_be_bytes()[1..].to_vec();
    Classifying { height: 1, width: 1, setting: 1, pixels, colours: 2, answer: 3 }
}

/// All pixels under a setting that makes them white or black, the first byte from block to block.
fn every_pixel(setting: u8) -> impl Iterator<Item = Classifying> {
    (0..16u32).map(move |block| {
        let numbers = block << 20..(block + 1) << 20;
        let pixels = numbers.flat_map(|n| n.to_be_bytes().into_iter().skip(1)).collect();
        let (height, width) = (1_024, 1_024);
        Classifying { height, width, setting, pixels, colours: height * width + 1, answer: 3 }
    })
}

fn by_chance(random: &mut Random, palette: &[[u8; 3]]) -> Classifying {
    let (height, width) = (1 + random.below(LONGEST) as usize, 1 + random.below(LONGEST) as usize);
    let strange = random.pick(&[0, 0, 8, 64]);
    let pixels = (0..height * width).flat_map(|_| pixel(random, palette, strange)).collect();
    let setting = random.below(4) as u8;
    let (colours, answer) =
        (height * width + random.below(3) as usize, 2 + random.below(2) as usize);
    let mut case = Classifying { height, width, setting, pixels, colours, answer };
    while random.one_in(4) {
        spoil(&mut case, random);
    }
    case
}

/// Runs of one pixel, about as long as the stretches that the port takes at once, and here and there a byte that differs.
fn in_runs(random: &mut Random, palette: &[[u8; 3]]) -> Classifying {
    let (height, width) = (1 + random.below(3) as usize, 1 + random.below(160) as usize);
    let strange = random.pick(&[0, 0, 4, 16]);
    let mut pixels = vec![];
    while pixels.len() < 3 * height * width {
        let pixel = pixel(random, palette, strange);
        pixels.extend(pixel.repeat(random.pick(&[1, 2, 31, 32, 33, 64, 65, 200])));
    }
    pixels.truncate(3 * height * width);
    if random.one_in(2) {
        let byte = random.below(pixels.len() as u32) as usize;
        pixels[byte] = random.pick(&[0x00, 0xC0, 0xFF, 0x80]);
    }
    let (setting, answer) = (random.below(4) as u8, 2);
    Classifying { height, width, setting, pixels, colours: height * width + 1, answer }
}

/// One of the twenty, or one in so many times a neighbour of it.
fn pixel(random: &mut Random, palette: &[[u8; 3]], strange: u32) -> [u8; 3] {
    let known = random.pick(palette);
    blurred(random, known, strange)
}

/// The pixel, or one in so many times a neighbour of it.
pub fn blurred(random: &mut Random, mut pixel: [u8; 3], strange: u32) -> [u8; 3] {
    if strange > 0 && random.one_in(strange) {
        let byte = &mut pixel[random.below(3) as usize];
        *byte = byte.wrapping_add(random.pick(&[1, 255, 0x40]));
    }
    pixel
}

pub fn spoil(case: &mut Classifying, random: &mut Random) {
    match random.below(6) {
        0 => case.height = random.pick(&FAR),
        1 => case.width = random.pick(&FAR),
        2 => case.setting = random.pick(&[4, 5, 255]),
        3 => case.pixels.resize(random.below(250) as usize, 0),
        4 => case.colours = case.colours.saturating_sub(1 + random.below(4) as usize),
        _ => case.answer = random.below(2) as usize,
    }
}

impl Classifying {
    /// The number and the place.
    pub fn judged(&self) -> (u32, [usize; 2]) {
        let sides = 1..=1_024;
        if !sides.contains(&self.height) || !sides.contains(&self.width) {
            return (1, [0, 0]);
        }
        if self.setting > 3 {
            return (3, [0, 0]);
        }
        if self.pixels.len() != 3 * self.height * self.width {
            return (2, [0, 0]);
        }
        if self.colours < self.height * self.width {
            return (4, [0, 0]);
        }
        let unknown = self.classified().position(|c| c.is_err());
        unknown.map_or((0, [0, 0]), |at| (5, [at / self.width, at % self.width]))
    }

    pub fn classified(&self) -> impl Iterator<Item = Result<u8, String>> + '_ {
        self.pixels.chunks(3).map(|p| classify([p[0], p[1], p[2]], self.setting))
    }
}

fn outcome(number: u32, answer: &[u64], colours: &[u8]) -> Outcome {
    Outcome(vec![
        ("number", vec![number.into()]),
        ("place", bits(answer)),
        ("colours", wide(colours)),
    ])
}

impl Classifying {
    fn expected(&self) -> Outcome {
        let (mut colours, mut answer) = (pattern(self.colours), pattern(self.answer));
        if answer.len() < 2 {
            return outcome(4, &answer, &colours);
        }
        let (number, place) = self.judged();
        over(&place.map(|p| p as u64), &mut answer);
        if number == 0 {
            over(&self.classified().flatten().collect::<Vec<u8>>(), &mut colours);
        }
        outcome(number, &answer, &colours)
    }

    fn found(&self) -> Outcome {
        let (mut colours, mut answer) = (pattern(self.colours), pattern(self.answer));
        let sides = (self.height, self.width);
        let number =
            library::classify(&self.pixels, sides, self.setting, &mut colours, &mut answer);
        outcome(number, &answer, &colours)
    }
}

impl Case for Classifying {
    fn outcomes(&self) -> [Outcome; 2] {
        [self.expected(), self.found()]
    }

    fn smaller(&self) -> impl Iterator<Item = Self> {
        let size = self.height.saturating_mul(self.width);
        let lesser = without_lines(self.height, self.width, self.pixels.as_chunks::<3>().0);
        lesser.map(move |(height, width, pixels)| Classifying {
            height,
            width,
            pixels: pixels.as_flattened().to_vec(),
            colours: relent(self.colours, size, height * width),
            ..*self
        })
    }

    fn shown(&self) -> String {
        let Classifying { height, width, setting, colours, answer, .. } = self;
        let pixels = hex(&self.pixels);
        format!("height {height} width {width} setting {setting} pixels {pixels} lent {colours} answer {answer}")
    }
}
