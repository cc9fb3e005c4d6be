//! Pictures and inputs by chance, from a generator of our own: one seed gives the same everywhere.
use crate::numbers::instruction;
use crate::paint::Op;
use crate::picture::Picture;

/// SplitMix64.
pub struct Random(u64);

pub const RED: u8 = 6;
pub const BLACK: u8 = 18;
pub const WHITE: u8 = 19;

/// Lines that inputs are put together from; the last has to end an input.
const LINES: [&[u8]; 14] = [
    b"5\n",
    b"-3\r\n",
    b" 12 \n",
    b"x\n",
    b"\n",
    b"\xE2\x82\xACuro\n",
    b"+7\n",
    b"0\n",
    b"65\n",
    b"2\n",
    b"9223372036854775807\n",
    b"-9223372036854775808\n",
    b"4\xFF\n",
    b"1",
];

const WHITE_SPACE: [&[u8]; 5] = [b"", b"", b" ", b"\t\r", b"\xE3\x80\x80"];

/// What stands between the white space of a line for IntIn: a sign, zeros, digits about the bounds of i64, and what
/// spoils a number or the whole line.
const NUMBER: [&[&[u8]]; 4] = [
    &[b"", b"", b"", b"+", b"-", b"-", b"+-", b"- "],
    &[b"", b"", b"000", b"0000000000000000000000000000"],
    &[
        b"",
        b"5",
        b"12",
        b"9223372036854775807",
        b"9223372036854775808",
        b"9223372036854775809",
        b"99999999999999999999",
        b"123456789012345678901234567890",
    ],
    &[b"", b"", b"", b"", b"", b"", b"x", b" 1", b"\xEF\xBC\x95", b"\xFF"],
];

/// Characters of one byte and of more, numbers, line ends, and some bytes that are no text.
const PIECES: [&[u8]; 20] = [
    b"a", b"b ", b"5", b"12", b"-3", b"0", b" ", b"+", b"\n", b"\n", b"\n", b"\r\n", b"\xC3\xA9",
    b"\xE2\x82\xAC", b"\xF0\x9F\x98\x80", b"\xE3\x80\x80", b"9223372036854775807",
    b"99999999999999999999", b"7\n", b"\xC3",
];

/// Where there is none, the line goes on in the next one.
const LINE_ENDS: [&[u8]; 7] = [b"\n", b"\n", b"\n", b"\n", b"\r\n", b"\r\n", b""];

impl Random {
    pub fn seeded(seed: u64) -> Self {
        Random(seed)
    }

    pub fn next(&mut self) -> u64 {
        self.0 = self.0.wrapping_add(0x9E37_79B9_7F4A_7C15);
        let z = (self.0 ^ (self.0 >> 30)).wrapping_mul(0xBF58_476D_1CE4_E5B9);
        let z = (z ^ (z >> 27)).wrapping_mul(0x94D0_49BB_1331_11EB);
        z ^ (z >> 31)
    }

    /// A number below this one, which is at least 1.
    pub fn below(&mut self, bound: u32) -> u32 {
        ((self.next() >> 32) * bound as u64 >> 32) as u32
    }

    pub fn pick<T: Copy>(&mut self, from: &[T]) -> T {
        from[self.below(from.len() as u32) as usize]
    }

    pub fn one_in(&mut self, count: u32) -> bool {
        self.below(count) == 0
    }

    /// Sides from 1 to the longest, codel width 1 to 3, few colours; pixel (0,0) is seldom white.
    pub fn picture(&mut self, longest: u32) -> Picture {
        let (height, width) = (1 + self.below(longest), 1 + self.below(longest));
        let (codel, few) = (self.codel(), self.few_colours());
        let mut colours = self.pixels(height as usize, width as usize, &few);
        if colours[0] == WHITE && !self.one_in(16) {
            colours[0] = self.below(WHITE as u32) as u8;
        }
        Picture { height, width, codel, colours }
    }

    /// As above, with so much white and black that slides are often lost.
    pub fn pale_picture(&mut self, longest: u32) -> Picture {
        let (height, width) = (1 + self.below(longest), 1 + self.below(longest));
        let (codel, coloured) = (self.codel(), [self.colour(), self.colour(), self.colour()]);
        let grounds = [&[WHITE, WHITE, BLACK][..], &[WHITE, WHITE, BLACK, BLACK], &[WHITE, BLACK]];
        let few = [self.pick(&grounds), &coloured[self.below(3) as usize..]].concat();
        let mut colours = self.pixels(height as usize, width as usize, &few);
        if !self.one_in(32) {
            colours[0] = self.pick(&[coloured[2], RED, RED, BLACK]).min(BLACK);
        }
        Picture { height, width, codel, colours }
    }

    pub fn codel(&mut self) -> u32 {
        self.pick(&[1, 1, 1, 2, 3])
    }

    /// Three to six, white and black often.
    fn few_colours(&mut self) -> Vec<u8> {
        (0..3 + self.below(4)).map(|_| self.colour()).collect()
    }

    fn colour(&mut self) -> u8 {
        match self.below(4) {
            0 => self.pick(&[BLACK, WHITE]),
            _ => self.below(20) as u8,
        }
    }

    /// In half of the pictures a pixel often has the colour of the one before it or above it, so that
    /// regions grow.
    fn pixels(&mut self, height: usize, width: usize, few: &[u8]) -> Vec<u8> {
        let grows = self.one_in(2);
        let mut colours = vec![];
        for at in 0..height * width {
            let back = self.pick(&[1, width]);
            let copied = grows && at >= back && !self.one_in(3);
            let fresh = self.pick(few);
            colours.push(if copied { colours[at - back] } else { fresh });
        }
        colours
    }

    pub fn input(&mut self) -> Vec<u8> {
        (0..self.below(6)).flat_map(|_| self.pick(&LINES)).copied().collect()
    }

    /// Up to seven lines, most of which IntIn skips, for each of the reasons.
    pub fn number_lines(&mut self) -> Vec<u8> {
        (0..self.below(8)).flat_map(|_| self.number_line()).collect()
    }

    fn number_line(&mut self) -> Vec<u8> {
        let number = NUMBER.map(|part| self.pick(part)).concat();
        let middle = if self.one_in(4) { vec![] } else { number };
        [self.pick(&WHITE_SPACE), &middle, self.pick(&WHITE_SPACE), self.pick(&LINE_ENDS)].concat()
    }

    /// Pieces of lines, so that several instructions read of one.
    pub fn shared_lines(&mut self) -> Vec<u8> {
        (0..self.below(14)).flat_map(|_| self.pick(&PIECES)).copied().collect()
    }

    /// Up to twenty instructions, values often among them.
    pub fn program(&mut self) -> Vec<Op> {
        (0..1 + self.below(20)).map(|_| self.op()).collect()
    }

    fn op(&mut self) -> Op {
        let number =
            if self.one_in(2) { self.pick(&[1, 1, 1, 16]) } else { 1 + self.below(17) as u8 };
        (instruction(number), 1 + self.below(4) as usize)
    }
}
