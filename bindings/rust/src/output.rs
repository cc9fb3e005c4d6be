//! What a run writes.
use std::fmt;

/// An output of a run. It is displayed as the run program prints it.
#[derive(Clone, Copy, Debug, PartialEq, Eq, Hash)]
pub enum Output {
    /// A character, by CharOut.
    Char(char),
    /// A number, by IntOut.
    Int(i64),
}

impl Output {
    /// The output that the cells of a run's two output slices stand for: kind 1 is a character, 2 a number. A run
    /// leaves no other kind, and no character that is none, in the cells that it counts as outputs.
    pub fn of(kind: u8, value: i64) -> Option<Output> {
        match kind {
            1 => u32::try_from(value).ok().and_then(char::from_u32).map(Output::Char),
            2 => Some(Output::Int(value)),
            _ => None,
        }
    }
}

impl fmt::Display for Output {
    fn fmt(&self, f: &mut fmt::Formatter<'_>) -> fmt::Result {
        match self {
            Output::Char(c) => write!(f, "c{}", u32::from(*c)),
            Output::Int(n) => write!(f, "i{n}"),
        }
    }
}
