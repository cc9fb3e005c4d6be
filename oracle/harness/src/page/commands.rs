//! The seventeen instructions of the second edition.
use super::grid::Pointers;
use super::input::{number, rest_of_line};
use super::op;
use super::run::Terms;
use std::fmt::{Display, Formatter};

pub const STACK_FULL: u32 = 4;
pub const OUTPUT_FULL: u32 = 5;
pub const BAD_INPUT: u32 = 6;

const CHARACTER: u8 = 1;
const NUMBER: u8 = 2;

/// What a run has met that the first edition does otherwise.
#[derive(Clone, Copy, Debug, PartialEq, Eq)]
pub enum Parting {
    /// a slide without a way out
    LostSlide,
    /// a slide that lands after eight turns or more
    LongSlide,
    /// Div or Mod by 0
    ByZero,
    /// Mod by a negative number
    Sign,
    /// Roll by a depth that is negative or too large
    Depth,
    /// CharIn that leaves something of its line
    Rest,
}

impl Display for Parting {
    fn fmt(&self, f: &mut Formatter) -> std::fmt::Result {
        f.write_str(match self {
            Parting::LostSlide => "a lost slide",
            Parting::LongSlide => "a long slide",
            Parting::ByZero => "Div or Mod by 0",
            Parting::Sign => "Mod by a negative number",
            Parting::Depth => "a bad depth",
            Parting::Rest => "the rest of a line",
        })
    }
}

#[derive(Clone, Default)]
pub struct Machine {
    pub pointers: Pointers,
    /// bottom first
    pub stack: Vec<i64>,
    /// kind and value
    pub outputs: Vec<(u8, i64)>,
    /// bytes of input
    pub used: usize,
    /// by the reason
    pub skipped: [u64; 4],
    /// abstract mode, and an input instruction was met
    pub awaits: bool,
    /// what its last instruction did otherwise
    pub parting: Option<Parting>,
}

impl Machine {
    /// After a step with these pointers and this instruction out of a block of this size, or why it can't be taken.
    pub fn stepped(
        &self,
        pointers: Pointers,
        (command, size): (u8, u32),
        terms: &Terms,
    ) -> Result<Machine, u32> {
        let mut after = Machine { pointers, parting: None, ..self.clone() };
        match command {
            op::CHAR_IN | op::INT_IN if terms.is_abstract => after.awaits = true,
            op::CHAR_IN => after.read_character(terms.input)?,
            op::INT_IN => after.read_number(terms.input)?,
            _ => after.execute(command, size),
        }
        if after.stack.len() > terms.stack {
            Err(STACK_FULL)
        } else if after.outputs.len() > terms.outputs {
            Err(OUTPUT_FULL)
        } else {
            Ok(after)
        }
    }

    /// All but the input instructions. With too few values nothing happens.
    fn execute(&mut self, command: u8, size: u32) {
        match (command, &mut self.stack[..]) {
            (op::PUSH, _) => self.stack.push(size as i64),
            (op::POP, [.., _]) => self.take_off(1),
            (op::ADD..=op::MOD | op::GT, &mut [.., b, a]) => {
                if let Some(result) = self.combined(command, b.into(), a.into()) {
                    self.take_off(2);
                    self.stack.push(wrapped(result));
                }
            }
            (op::NOT, [.., a]) => *a = (*a == 0) as i64,
            (op::PTR, &mut [.., a]) => self.turn(self.pointers.turned(a.into())),
            (op::SWI, &mut [.., a]) => self.turn(self.pointers.switched(a.into())),
            (op::DUP, &mut [.., a]) => self.stack.push(a),
            (op::ROLL, &mut [.., n, a]) => self.roll(n.into(), a.into()),
            (op::CHAR_OUT, &mut [.., a]) => {
                self.take_off(1);
                let character = char::from_u32(a.rem_euclid(1 << 32) as u32);
                self.outputs.extend(character.map(|c| (CHARACTER, u32::from(c).into())));
            }
            (op::INT_OUT, &mut [.., a]) => {
                self.take_off(1);
                self.outputs.push((NUMBER, a));
            }
            _ => (),
        }
    }

    fn take_off(&mut self, count: usize) {
        self.stack.truncate(self.stack.len() - count);
    }

    fn turn(&mut self, pointers: Pointers) {
        self.take_off(1);
        self.pointers = pointers;
    }

    /// None where the instruction can't be carried out.
    fn combined(&mut self, command: u8, b: i128, a: i128) -> Option<i128> {
        if matches!(command, op::DIV | op::MOD) && a == 0 {
            self.parting = Some(Parting::ByZero);
            return None;
        }
        if command == op::MOD && a < 0 {
            self.parting = Some(Parting::Sign);
        }
        Some(match command {
            op::ADD => b + a,
            op::SUB => b - a,
            op::MUL => b * a,
            op::DIV => b / a,
            op::MOD => b - a * floor(b, a),
            _ => (b > a) as i128,
        })
    }

    /// One roll at a time: the top goes under the n - 1 values below it.
    fn roll(&mut self, n: i128, a: i128) {
        let left = self.stack.len() - 2;
        if n < 0 || n > left as i128 {
            self.parting = Some(Parting::Depth);
            return;
        }
        self.take_off(2);
        for _ in 0..a.checked_rem_euclid(n).unwrap_or(0) {
            let top = self.stack.pop().expect("n is at least 1");
            self.stack.insert(left - n as usize, top);
        }
    }

    /// CharIn takes one character of what is left of the line; the newline is one.
    fn read_character(&mut self, input: &[u8]) -> Result<(), u32> {
        let line = rest_of_line(input, self.used).ok_or(BAD_INPUT)?;
        if let Some(character) = line.chars().next() {
            let rest = line.len() > character.len_utf8();
            self.parting = rest.then_some(Parting::Rest);
            self.used += character.len_utf8();
            self.stack.push(u32::from(character).into());
        }
        Ok(())
    }

    /// IntIn takes all that is left of the line.
    fn read_number(&mut self, input: &[u8]) -> Result<(), u32> {
        let line = rest_of_line(input, self.used).ok_or(BAD_INPUT)?;
        self.used += line.len();
        match number(line) {
            Ok(value) => self.stack.push(value),
            Err(why) => self.skipped[why as usize] += 1,
        }
        Ok(())
    }
}

/// The largest whole number that is not above b over a.
fn floor(b: i128, a: i128) -> i128 {
    let toward_zero = b / a;
    if toward_zero * a != b && (b < 0) != (a < 0) {
        toward_zero - 1
    } else {
        toward_zero
    }
}

/// The value that differs from this number by a multiple of 2^64.
fn wrapped(number: i128) -> i64 {
    let half = 1 << 63;
    ((number + half).rem_euclid(2 * half) - half) as i64
}
