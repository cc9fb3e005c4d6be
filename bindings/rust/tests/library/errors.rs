//! Refusals and errors: numbers and texts.
use piet::{Colour, Error, Refusal, Unknown};

const REFUSALS: [Refusal; 15] = [
    Refusal::Size,
    Refusal::Bytes,
    Refusal::Setting,
    Refusal::Room,
    Refusal::Pixel { row: 3, column: 4 },
    Refusal::Codel,
    Refusal::Grid,
    Refusal::Colour { index: 5 },
    Refusal::White,
    Refusal::Table,
    Refusal::Label,
    Refusal::Header,
    Refusal::Length,
    Refusal::Edition,
    Refusal::Limit,
];

#[test]
fn numbers() {
    assert_eq!(REFUSALS.map(Refusal::number), [1, 2, 3, 4, 5, 6, 7, 8, 9, 10, 12, 13, 14, 15, 16]);
}

#[test]
fn texts() {
    let texts = REFUSALS.map(|refusal| refusal.to_string());
    assert_eq!(texts[4], "the pixel at row 3, column 4 is none of the twenty colours");
    assert_eq!(texts[7], "the colour number at index 5 is above 19");
    assert!((1..texts.len()).all(|at| !texts[..at].contains(&texts[at])));
    assert_eq!(Error::Refused(Refusal::White).to_string(), "refused 9: pixel (0,0) is white");
    assert!(Error::Memory.to_string().contains("memory"));
}

/// Every way to fail goes through `?`.
#[test]
fn passed_on() {
    fn setting(number: u8) -> Result<Unknown, Error> {
        Ok(Unknown::try_from(number)?)
    }
    fn colour(number: u8) -> Result<Colour, Box<dyn std::error::Error>> {
        Ok(Colour::try_from(number)?)
    }
    assert_eq!(setting(3), Ok(Unknown::Black));
    assert_eq!(setting(4), Err(Error::Refused(Refusal::Setting)));
    assert_eq!(colour(20).unwrap_err().to_string(), "no colour has the number 20");
}
