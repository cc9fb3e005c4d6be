//! What the input instructions make of a line.
use crate::machine::{execute, Before, BAD_LINE};
use crate::skips::{reason, Reason};
use std::fmt::{Display, Formatter};
use std::io::{BufRead, Cursor, ErrorKind};

const CHAR_IN: u8 = 14;
const INT_IN: u8 = 16;

#[derive(Clone, Copy, Debug, PartialEq, Eq)]
pub enum Taken {
    Pushed(i64),
    /// with the reason where IntIn skips
    Skipped(Option<Reason>),
    Bad,
}

/// The line's character for CharIn.
pub fn first_char(line: &str) -> Option<i64> {
    line.chars().next().map(|c| c as i64)
}

/// The line's number for IntIn.
pub fn number(line: &str) -> Option<i64> {
    line.trim().parse::<i64>().ok()
}

/// What CharIn does at the start of this input, and the bytes it consumes.
pub fn char_in(input: &[u8]) -> (Taken, usize) {
    agreed(CHAR_IN, first_char, input)
}

/// What IntIn does at the start of this input, and the bytes it consumes. There has to be a reason exactly
/// where it skips.
pub fn int_in(input: &[u8]) -> (Taken, usize) {
    let (taken, used) = agreed(INT_IN, number, input);
    let why = reason(input, 0);
    assert_eq!(why.is_some(), taken == Taken::Skipped(None), "{input:02x?}");
    (why.map_or(taken, |_| Taken::Skipped(why)), used)
}

/// The standard library's answer, which has to be the interpreter's own.
fn agreed(instruction: u8, value: fn(&str) -> Option<i64>, input: &[u8]) -> (Taken, usize) {
    let answer = by_library(value, input);
    assert_eq!(answer, by_interpreter(instruction, input), "{input:02x?}");
    answer
}

/// As the interpreter reads, but from memory.
fn by_library(value: fn(&str) -> Option<i64>, input: &[u8]) -> (Taken, usize) {
    let mut line = String::new();
    match Cursor::new(input).read_line(&mut line) {
        Ok(used) => (pushed(value(&line)), used),
        Err(e) => {
            assert_eq!(e.kind(), ErrorKind::InvalidData);
            (Taken::Bad, 0)
        }
    }
}

fn by_interpreter(instruction: u8, input: &[u8]) -> (Taken, usize) {
    let before = Before { size: 0, state: 0, stack: &[], input, is_abstract: false };
    match execute(instruction, &before) {
        Ok(a) => (pushed(a.stack.first().copied()), a.used),
        Err(text) => {
            assert!(text.starts_with(BAD_LINE), "{text}");
            (Taken::Bad, 0)
        }
    }
}

fn pushed(value: Option<i64>) -> Taken {
    value.map_or(Taken::Skipped(None), Taken::Pushed)
}

impl Display for Taken {
    fn fmt(&self, f: &mut Formatter) -> std::fmt::Result {
        match self {
            Taken::Pushed(v) => write!(f, "{v}"),
            Taken::Skipped(None) => write!(f, "s"),
            Taken::Skipped(Some(why)) => write!(f, "{why}"),
            Taken::Bad => write!(f, "b"),
        }
    }
}
