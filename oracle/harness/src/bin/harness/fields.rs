//! The fields of a question. Numbers are held to the bounds of the rules: beyond them the library
//! refuses, and the Rust does not.
use harness::outside::LONGEST_INPUT;
use harness::picture::Picture;
use std::fmt::Display;
use std::ops::RangeInclusive;
use std::str::{FromStr, SplitWhitespace};

/// What is left of the question.
pub struct Fields<'a>(SplitWhitespace<'a>);

impl<'a> Fields<'a> {
    pub fn of(question: &'a str) -> Self {
        Fields(question.split_whitespace())
    }

    pub fn word(&mut self, name: &str) -> Result<&'a str, String> {
        self.0.next().ok_or(format!("{name}: missing"))
    }

    pub fn number<T>(&mut self, name: &str, allowed: RangeInclusive<T>) -> Result<T, String>
    where
        T: FromStr + PartialOrd + Display,
    {
        let word = self.word(name)?;
        let number = word.parse().ok().filter(|n| allowed.contains(n));
        let (low, high) = (allowed.start(), allowed.end());
        number.ok_or(format!("{name}: not a number from {low} to {high}: {word}"))
    }

    pub fn hex(&mut self, name: &str) -> Result<Vec<u8>, String> {
        let word = self.word(name)?;
        if word == "-" {
            return Ok(vec![]);
        }
        let digits: Option<Vec<u32>> = word.chars().map(|c| c.to_digit(16)).collect();
        let digits = digits.filter(|d| d.len() % 2 == 0);
        let digits = digits.ok_or(format!("{name}: not pairs of hex digits, nor -: {word}"))?;
        Ok(digits.chunks(2).map(|pair| (16 * pair[0] + pair[1]) as u8).collect())
    }

    pub fn input(&mut self) -> Result<Vec<u8>, String> {
        let input = self.hex("input")?;
        let short = input.len() <= LONGEST_INPUT;
        short.then_some(input).ok_or(format!("input: more than {LONGEST_INPUT} bytes"))
    }

    pub fn mode(&mut self) -> Result<bool, String> {
        self.number("mode", 0..=1).map(|mode: u8| mode == 1)
    }

    pub fn colour(&mut self) -> Result<u8, String> {
        self.number("colour", 0..=19)
    }

    pub fn position(&mut self, last: u32) -> Result<(u32, u32), String> {
        Ok((self.number("row", 0..=last)?, self.number("column", 0..=last)?))
    }

    pub fn sides(&mut self) -> Result<(u32, u32), String> {
        Ok((self.number("height", 1..=1_024)?, self.number("width", 1..=1_024)?))
    }

    pub fn colours(&mut self, count: u32) -> Result<Vec<u8>, String> {
        let colours = self.hex("colours")?;
        let good = colours.len() == count as usize && colours.iter().all(|&c| c <= 19);
        good.then_some(colours).ok_or(format!("colours: not {count} bytes from 00 to 13"))
    }

    pub fn picture(&mut self) -> Result<Picture, String> {
        let (height, width) = self.sides()?;
        let codel = self.number("codel", 1..=1_024)?;
        if height.div_ceil(codel) * width.div_ceil(codel) > 65_536 {
            return Err("picture: more than 65536 codels".into());
        }
        Ok(Picture { height, width, codel, colours: self.colours(height * width)? })
    }

    /// The stack, which is all that is left.
    pub fn stack(&mut self) -> Result<Vec<i64>, String> {
        let mut values = vec![];
        while self.0.clone().next().is_some() {
            values.push(self.number("stack", i64::MIN..=i64::MAX)?);
        }
        Ok(values)
    }

    pub fn end(&mut self) -> Result<(), String> {
        self.0.next().map_or(Ok(()), |word| Err(format!("one field too many: {word}")))
    }
}
