//! Classifying.
use crate::support::{classified, pixel, row_of, Slices, CELLS, PATTERN, UNKNOWN};
use piet::{classify, Cells, Colour, Refusal, Unknown};

/// The refusal of classifying, which has to leave the colours as they were.
fn refused(pixels: &[u8], sides: (usize, usize), room: usize) -> Refusal {
    let slices = Slices::of(row_of(room), Cells { stack: 0, ..CELLS });
    crate::support::refused(slices, |lent| classify(pixels, sides, Unknown::Refused, lent.colours))
}

#[test]
fn refused_in_order() {
    let pixels = [pixel(Colour::LightRed), UNKNOWN].concat();
    let too_few = &pixels[..5];
    for sides in [(0, 2), (1, 0), (1_025, 1), (1, 1_025), (usize::MAX, usize::MAX)] {
        assert_eq!(refused(too_few, sides, 0), Refusal::Size);
    }
    assert_eq!(refused(too_few, (1, 2), 0), Refusal::Bytes);
    assert_eq!(refused(&[], (1, 1), 0), Refusal::Bytes);
    assert_eq!(refused(&pixels, (1, 2), 1), Refusal::Room);
    assert_eq!(refused(&pixels, (1, 2), 2), Refusal::Pixel { row: 0, column: 1 });
    assert_eq!(refused(&pixels, (2, 1), 3), Refusal::Pixel { row: 1, column: 0 });
}

#[test]
fn unknown_pixels_by_setting() {
    let place = Err(Refusal::Pixel { row: 0, column: 0 });
    assert_eq!(classified(UNKNOWN, Unknown::Refused), place);
    assert_eq!(classified(UNKNOWN, Unknown::Default), Ok(Colour::White.number()));
    assert_eq!(classified(UNKNOWN, Unknown::White), Ok(Colour::White.number()));
    assert_eq!(classified(UNKNOWN, Unknown::Black), Ok(Colour::Black.number()));
}

#[test]
fn cells_past_the_picture_stay() {
    let mut colours = [PATTERN; 2];
    classify(&pixel(Colour::Blue), (1, 1), Unknown::Refused, &mut colours).unwrap();
    assert_eq!(colours, [Colour::Blue.number(), PATTERN]);
}
