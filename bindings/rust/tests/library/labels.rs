//! Labels.
use crate::support::PATTERN;
use piet::{label, Colour, Error, Refusal, Region, LABEL};

#[test]
fn labels() {
    let cases = [
        (Colour::Red, (0, 0), "Entry"),
        (Colour::Red, (0, 1), "RegRed_0_1"),
        (Colour::LightMagenta, (1_023, 1_023), "LightMagenta_1023_1023"),
        (Colour::DarkCyan, (10, 9), "DarkCyan_10_9"),
        (Colour::Black, (1, 0), "Black_1_0"),
        (Colour::White, (0, 7), "White_0_7"),
    ];
    for (colour, (row, column), expected) in cases {
        let mut out = [PATTERN; LABEL + 1];
        assert_eq!(label(colour, (row, column), &mut out), Ok(expected.len()));
        assert_eq!(&out[..expected.len()], expected.as_bytes());
        assert!(out[expected.len()..LABEL].iter().all(|&byte| byte == 0));
        assert_eq!(out[LABEL], PATTERN);
        let region = Region { colour, size: 1, row, column, node: true };
        assert_eq!(region.label(), Ok(expected.to_string()));
    }
}

#[test]
fn refused() {
    for (place, room) in [((1_024, 0), LABEL), ((0, usize::MAX), LABEL), ((0, 0), LABEL - 1), ((0, 0), 0)] {
        let mut out = vec![PATTERN; room];
        assert_eq!(label(Colour::Red, place, &mut out), Err(Refusal::Label));
        assert!(out.iter().all(|&byte| byte == PATTERN));
    }
    let region = Region { colour: Colour::Red, size: 1, row: 1_024, column: 0, node: true };
    assert_eq!(region.label(), Err(Error::Refused(Refusal::Label)));
}
