//! A picture as codels: its blocks, and the ways out of one.
use super::op;
use std::collections::{HashMap, HashSet};

const BLACK: u8 = 18;
const WHITE: u8 = 19;

/// The turn at which a slide of the first edition is lost.
const LAST_TURN: u32 = 8;

/// Instructions by hue steps forward and steps darker.
const COMMANDS: [[u8; 3]; 6] = [
    [op::NONE, op::PUSH, op::POP],
    [op::ADD, op::SUB, op::MUL],
    [op::DIV, op::MOD, op::NOT],
    [op::GT, op::PTR, op::SWI],
    [op::DUP, op::ROLL, op::INT_IN],
    [op::CHAR_IN, op::INT_OUT, op::CHAR_OUT],
];

/// By rows first, so that the order of codels is that of the rows. It may lie outside of the picture.
#[derive(Clone, Copy, Debug, PartialEq, Eq, PartialOrd, Ord, Hash)]
pub struct Codel {
    pub row: i64,
    pub column: i64,
}

/// dp is right, down, left, up: 0 to 3. cc is left, right: 0, 1.
#[derive(Clone, Copy, Debug, Default, PartialEq, Eq)]
pub struct Pointers {
    pub dp: u32,
    pub cc: u32,
}

/// What an attempt to leave a block meets.
pub enum Way {
    /// black, or the edge of the picture
    Shut,
    /// a block of colour
    Beside(Codel),
    /// white, and behind it where the slide lands, or a slide that is lost
    Across { white: Codel, landing: Option<Landing> },
}

/// The codel of colour that a slide comes to, with these pointers and after so many turns.
#[derive(Clone, Copy, Debug, PartialEq, Eq)]
pub struct Landing {
    pub at: Codel,
    pub by: Pointers,
    pub turns: u32,
}

impl Landing {
    /// Whether the first edition loses the slide.
    pub fn is_long(&self) -> bool {
        self.turns >= LAST_TURN
    }
}

impl Codel {
    pub fn next(self, dp: u32) -> Codel {
        let Codel { row, column } = self;
        match dp {
            0 => Codel { row, column: column + 1 },
            1 => Codel { row: row + 1, column },
            2 => Codel { row, column: column - 1 },
            _ => Codel { row: row - 1, column },
        }
    }

    /// How far it lies in this direction.
    fn toward(self, dp: u32) -> i64 {
        [self.column, self.row, -self.column, -self.row][dp as usize]
    }
}

impl Pointers {
    pub fn numbered(state: u32) -> Self {
        Pointers { dp: state / 2, cc: state % 2 }
    }

    pub fn number(self) -> u32 {
        2 * self.dp + self.cc
    }

    /// Quarters clockwise, or the other way for a negative number.
    pub fn turned(self, quarters: i128) -> Self {
        Pointers { dp: (self.dp as i128 + quarters).rem_euclid(4) as u32, ..self }
    }

    pub fn switched(self, times: i128) -> Self {
        Pointers { cc: (self.cc as i128 + times).rem_euclid(2) as u32, ..self }
    }

    /// The eight attempts in their order: after the first cc flips, after the second dp turns, and so on.
    pub fn attempts(self) -> impl Iterator<Item = Pointers> {
        (0..8).scan(self, |next, tried| {
            let now = *next;
            *next = if tried % 2 == 0 { now.switched(1) } else { now.turned(1) };
            Some(now)
        })
    }

    /// Where cc's side is, looking along dp.
    fn side(self) -> u32 {
        (self.dp + if self.cc == 0 { 3 } else { 1 }) % 4
    }
}

/// Colour numbers of the codels.
pub struct Grid {
    rows: i64,
    columns: i64,
    codel: i64,
    colours: Vec<u8>,
}

impl Grid {
    /// Of a picture by the colour numbers of its pixels, of which the top left one of each codel counts.
    pub fn new((height, width, codel): (usize, usize, usize), pixels: &[u8]) -> Grid {
        let (rows, columns) = (height.div_ceil(codel), width.div_ceil(codel));
        let pixel = |at: usize| pixels[at / columns * codel * width + at % columns * codel];
        let colours = (0..rows * columns).map(pixel).collect();
        Grid { rows: rows as i64, columns: columns as i64, codel: codel as i64, colours }
    }

    /// Row by row.
    pub fn codels(&self) -> impl Iterator<Item = Codel> + '_ {
        (0..self.colours.len()).map(|index| self.codel(index))
    }

    pub fn codel(&self, index: usize) -> Codel {
        Codel { row: index as i64 / self.columns, column: index as i64 % self.columns }
    }

    pub fn index(&self, at: Codel) -> usize {
        (at.row * self.columns + at.column) as usize
    }

    /// The row and the column of the codel's first pixel.
    pub fn pixel(&self, at: Codel) -> [u32; 2] {
        [at.row, at.column].map(|n| (n * self.codel) as u32)
    }

    pub fn colour(&self, at: Codel) -> Option<u8> {
        let inside = (0..self.rows).contains(&at.row) && (0..self.columns).contains(&at.column);
        inside.then(|| self.colours[self.index(at)])
    }

    pub fn is_white(&self, at: Codel) -> bool {
        self.colour(at) == Some(WHITE)
    }

    /// The codels beside this one that are of its colour.
    pub fn alike(&self, at: Codel) -> impl Iterator<Item = Codel> + '_ {
        (0..4).map(move |dp| at.next(dp)).filter(move |&c| self.colour(c) == self.colour(at))
    }

    /// The block of a codel, in the order of the rows.
    pub fn block(&self, of: Codel) -> Vec<Codel> {
        let (mut block, mut looked) = (vec![of], 0);
        while let Some(&at) = block.get(looked) {
            let new: Vec<Codel> = self.alike(at).filter(|c| !block.contains(c)).collect();
            block.extend(new);
            looked += 1;
        }
        block.sort();
        block
    }

    /// The number of each of these codels' blocks: how many blocks begin before it.
    pub fn numbers(&self, of: &[Codel]) -> Vec<usize> {
        let (mut numbers, mut begun) = (HashMap::new(), 0);
        let mut open: HashSet<Codel> = of.iter().copied().collect();
        for at in self.codels() {
            if open.is_empty() {
                break;
            }
            if !numbers.contains_key(&at) {
                let block = self.block(at);
                block.iter().for_each(|codel| _ = open.remove(codel));
                numbers.extend(block.into_iter().map(|codel| (codel, begun)));
                begun += 1;
            }
        }
        of.iter().map(|codel| numbers[codel]).collect()
    }

    /// One attempt to leave a block: from its furthest codel toward dp, of several from the one furthest to cc's side.
    pub fn attempt(&self, block: &[Codel], by: Pointers) -> Way {
        let furthest = block.iter().max_by_key(|c| (c.toward(by.dp), c.toward(by.side())));
        let ahead = furthest.expect("a block has codels").next(by.dp);
        match self.colour(ahead) {
            None | Some(BLACK) => Way::Shut,
            Some(WHITE) => Way::Across { white: ahead, landing: self.slide(ahead, by) },
            Some(_) => Way::Beside(ahead),
        }
    }

    /// Where a slide from this white codel lands; none where it is lost: it comes, by a move or a turn, to a codel with a dp
    /// that it had there before, the first codel with its dp among them.
    fn slide(&self, mut at: Codel, mut by: Pointers) -> Option<Landing> {
        let (mut had, mut turns) = (HashSet::new(), 0);
        while had.insert((at, by.dp)) {
            let ahead = at.next(by.dp);
            match self.colour(ahead) {
                None | Some(BLACK) => {
                    by = by.switched(1).turned(1);
                    turns += 1;
                }
                Some(WHITE) => at = ahead,
                Some(_) => return Some(Landing { at: ahead, by, turns }),
            }
        }
        None
    }

    /// The instruction of the step from one codel to another.
    pub fn command(&self, from: Codel, to: Codel) -> u8 {
        match [from, to].map(|c| self.colour(c)) {
            [Some(from @ 0..BLACK), Some(to @ 0..BLACK)] => {
                let hue = (6 + to % 6 - from % 6) % 6;
                let darker = (3 + from / 6 - to / 6) % 3;
                COMMANDS[hue as usize][darker as usize]
            }
            _ => op::NONE,
        }
    }
}
