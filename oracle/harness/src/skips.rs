//! Why IntIn skips a line (rule 10.8). The Rust tells only that it does, so this is a model of the rules, on the
//! standard library's text functions; where it is asked, what the Rust does has to agree with it.
use std::fmt::{Display, Formatter};
use std::str::from_utf8;

#[derive(Clone, Copy, Debug, PartialEq, Eq)]
pub enum Reason {
    /// no byte of input is left
    Ended,
    /// white space alone
    Blank,
    NotNumber,
    OutOfRange,
}

/// How many lines were skipped for each reason, in the order of the reasons.
pub type Skips = [u64; 4];

const LARGEST: &str = "9223372036854775807";
const LARGEST_BELOW_ZERO: &str = "9223372036854775808";

/// Why IntIn skips the line at this place of the input; None where it pushes, and where the line is not UTF-8.
pub fn reason(input: &[u8], place: usize) -> Option<Reason> {
    let Some(line) = input[place..].split_inclusive(|&b| b == b'\n').next() else {
        return Some(Reason::Ended);
    };
    let text = from_utf8(line).ok()?.trim();
    let (digits, largest) = unsigned(text);
    if text.is_empty() {
        Some(Reason::Blank)
    } else if !is_numeral(digits) {
        Some(Reason::NotNumber)
    } else {
        is_above(digits, largest).then_some(Reason::OutOfRange)
    }
}

/// What stands after the sign, and the largest number that may stand there.
fn unsigned(text: &str) -> (&str, &str) {
    match text.strip_prefix('-') {
        Some(digits) => (digits, LARGEST_BELOW_ZERO),
        None => (text.strip_prefix('+').unwrap_or(text), LARGEST),
    }
}

fn is_numeral(digits: &str) -> bool {
    !digits.is_empty() && digits.bytes().all(|b| b.is_ascii_digit())
}

/// Compared as texts, so that there is no number that is too large for it.
fn is_above(digits: &str, largest: &str) -> bool {
    let digits = digits.trim_start_matches('0');
    (digits.len(), digits) > (largest.len(), largest)
}

impl Display for Reason {
    fn fmt(&self, f: &mut Formatter) -> std::fmt::Result {
        write!(f, "{}", ["e", "w", "n", "o"][*self as usize])
    }
}
