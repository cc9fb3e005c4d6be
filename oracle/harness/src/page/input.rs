//! What the input instructions find at a place of the input.
use std::str::from_utf8;

/// Why IntIn skips: the input has ended; white space alone; not a number; a number that is none of the values.
#[derive(Clone, Copy, Debug, PartialEq, Eq)]
pub enum Skip {
    Ended,
    Blank,
    NotNumber,
    OutOfRange,
}

/// What is left of the line, with its newline; None where it is not UTF-8.
pub fn rest_of_line(input: &[u8], place: usize) -> Option<&str> {
    let rest = &input[place..];
    let end = rest.iter().position(|&byte| byte == b'\n').map_or(rest.len(), |at| at + 1);
    from_utf8(&rest[..end]).ok()
}

/// The number that a line, or what is left of it, says.
pub fn number(line: &str) -> Result<i64, Skip> {
    let text: Vec<char> = line.trim().chars().collect();
    let (sign, digits) = match text.as_slice() {
        [] if line.is_empty() => return Err(Skip::Ended),
        [] => return Err(Skip::Blank),
        ['-', digits @ ..] => (-1, digits),
        ['+', digits @ ..] | digits => (1, digits),
    };
    let digits: Option<Vec<u32>> = digits.iter().map(|c| c.to_digit(10)).collect();
    let digits = digits.filter(|d| !d.is_empty()).ok_or(Skip::NotNumber)?;
    // A sum that is too large stays so, and does not grow past what an i128 holds.
    let too_large = 1 << 64;
    let value = digits.iter().fold(0, |sum: i128, &d| (10 * sum + d as i128).min(too_large));
    i64::try_from(sign * value).map_err(|_| Skip::OutOfRange)
}
