//! Runs of pictures: every status, outputs, and the refusals in their order.
use crate::support::{pixel, pixels, row_of, Slices, CELLS, TERMS, UNKNOWN};
use piet::{
    run_picture, Cc, Cells, Colour, Dp, Edition, Error, Output, Picture, Pointers, Refusal, Shape, Status,
    Terms, Told, Unknown,
};

/// IntIn to light blue, Dup to light green, CharOut to dark yellow, IntOut to light red.
const ECHO: [Colour; 5] =
    [Colour::Red, Colour::LightBlue, Colour::LightGreen, Colour::DarkYellow, Colour::LightRed];
const ECHO_TERMS: Terms = Terms { limit: 4, abstract_mode: false, input: b"65\n66\n" };

/// Every picture here is run alike in both editions.
fn run_pixels(picture: Picture, terms: Terms, cells: Cells) -> Result<Told, Error> {
    let told = piet::run_pixels(picture, Edition::Rust, terms, cells);
    assert_eq!(piet::run_pixels(picture, Edition::Page, terms, cells), told);
    told
}

fn echo(terms: Terms, cells: Cells) -> (Status, u64) {
    let told = run_pixels(Picture::of(&pixels(&ECHO), row_of(5)), terms, cells).unwrap();
    (told.ended.status, told.ended.steps)
}

#[test]
fn a_character_and_a_number() {
    let told = run_pixels(Picture::of(&pixels(&ECHO), row_of(5)), ECHO_TERMS, CELLS).unwrap();
    assert_eq!(told.outputs, [Output::Char('A'), Output::Int(65)]);
    assert_eq!((told.stack.len(), told.ended.used, told.regions), (0, 3, 5));
    assert!(told.to_string().ends_with("\nstack 0\nout 2 c65 i65\n"));
}

#[test]
fn every_status() {
    assert_eq!(echo(ECHO_TERMS, CELLS), (Status::MaxSteps, 4));
    assert_eq!(echo(Terms { abstract_mode: true, ..ECHO_TERMS }, CELLS), (Status::NeedsInput, 1));
    assert_eq!(echo(ECHO_TERMS, Cells { stack: 1, ..CELLS }), (Status::StackFull, 1));
    assert_eq!(echo(ECHO_TERMS, Cells { outputs: 1, ..CELLS }), (Status::OutputFull, 3));
    assert_eq!(echo(Terms { input: b"\xFF", ..ECHO_TERMS }, CELLS), (Status::BadInput, 0));
    let told = run_pixels(Picture::of(&pixel(Colour::Red), row_of(1)), TERMS, CELLS).unwrap();
    assert_eq!((told.ended.status, told.region.label()), (Status::Completed, Ok("Entry".into())));
}

#[test]
fn pointers_at_the_end() {
    let at = |colours: &[Colour], shape, limit| {
        let told = run_pixels(Picture::of(&pixels(colours), shape), Terms { limit, ..TERMS }, CELLS).unwrap();
        let Pointers { dp, cc } = told.ended.pointers;
        (told.ended.region, dp, cc, told.to_string().lines().nth(2).map(str::to_string))
    };
    // to red and back
    let back = at(&[Colour::LightRed, Colour::Red], row_of(2), 2);
    assert_eq!(back, (0, Dp::Left, Cc::Left, Some("at Entry 2 0".into())));
    // a slide that turns once
    let colours = [Colour::Red, Colour::White, Colour::Black, Colour::Green];
    let turned = at(&colours, Shape { height: 2, width: 2, codel: 1 }, 1);
    assert_eq!(turned, (3, Dp::Down, Cc::Right, Some("at RegGreen_1_1 1 1".into())));
}

#[test]
fn cells_that_are_outputs() {
    assert_eq!(Output::of(1, 65), Some(Output::Char('A')));
    assert_eq!(Output::of(2, -3), Some(Output::Int(-3)));
    for (kind, value) in [(0, 0), (3, 0), (1, -1), (1, 0xD800), (1, 0x11_0000), (1, i64::MAX)] {
        assert_eq!(Output::of(kind, value), None);
    }
}

#[test]
fn no_room_for_a_run() {
    let nothing = Cells { stack: 0, outputs: 0 };
    let picture = pixels(&[Colour::LightRed, Colour::Red]);
    let told = run_pixels(Picture::of(&picture, row_of(2)), TERMS, nothing).unwrap();
    assert_eq!(told.to_string(), "status 4\nsteps 0\nat Entry 0 0\nstack 0\nout 0\n");
}

#[test]
fn unknown_pixels_by_setting() {
    let picture = [pixel(Colour::Red), UNKNOWN].concat();
    let told = |unknown| {
        run_pixels(Picture { unknown, ..Picture::of(&picture, row_of(2)) }, TERMS, CELLS)
            .map(|told| (told.ended.status, told.ended.steps))
    };
    let place = Err(Error::Refused(Refusal::Pixel { row: 0, column: 1 }));
    assert_eq!(told(Unknown::Refused), place);
    // through white it slides back to where it was, three times; black is no way out
    let slides = Ok((Status::MaxSteps, 3));
    assert_eq!((told(Unknown::Default), told(Unknown::White)), (slides, slides));
    assert_eq!(told(Unknown::Black), Ok((Status::Completed, 0)));
}

/// Where a run would start, it is refused as unknown or as white; made black it runs.
#[test]
fn an_unknown_first_pixel() {
    let told = |unknown| {
        run_pixels(Picture { unknown, ..Picture::of(&UNKNOWN, row_of(1)) }, TERMS, CELLS)
            .map(|told| told.ended.status)
    };
    assert_eq!(told(Unknown::Refused), Err(Error::Refused(Refusal::Pixel { row: 0, column: 0 })));
    assert_eq!(told(Unknown::Default), Err(Error::Refused(Refusal::White)));
    assert_eq!(told(Unknown::White), Err(Error::Refused(Refusal::White)));
    assert_eq!(told(Unknown::Black), Ok(Status::Completed));
}

/// A picture that is wrong in all its later ways too gets the first refusal, and every slice stays; with the room made
/// it is refused alike, but for the room.
#[test]
fn refused_in_order() {
    let shape = |height, width, codel| Shape { height, width, codel };
    let unknown = [pixel(Colour::White), UNKNOWN].concat();
    let white = pixel(Colour::White).repeat(1_024 * 65);
    let cases = [
        (Refusal::Size, &[][..], shape(0, 1, 0), 0),
        (Refusal::Size, &[], shape(1_025, 1, 0), 0),
        (Refusal::Size, &[], shape(usize::MAX, usize::MAX, usize::MAX), 0),
        (Refusal::Bytes, &unknown[..5], shape(1, 2, 0), 0),
        (Refusal::Bytes, &unknown, shape(1, 1, 0), 0),
        (Refusal::Pixel { row: 0, column: 1 }, &unknown, shape(1, 2, 0), 2),
        (Refusal::Pixel { row: 1, column: 0 }, &unknown, shape(2, 1, 0), 2),
        (Refusal::Codel, &white, shape(1_024, 65, 0), 1_024 * 65),
        (Refusal::Codel, &white, shape(1_024, 65, 1_025), 1_024 * 65),
        (Refusal::Codel, &white, shape(1_024, 65, usize::MAX), 1_024 * 65),
        (Refusal::Grid, &white, shape(1_024, 65, 1), 1_024 * 65),
        (Refusal::White, &white, shape(1_024, 65, 2), 1_024 * 65),
    ];
    for (expected, pixels, shape, colours) in cases {
        let picture = Picture::of(pixels, shape);
        let mut slices = Slices::none();
        slices.colours.resize(colours, 7);
        for edition in Edition::ALL {
            let refusal =
                crate::support::refused(slices.clone(), |lent| run_picture(picture, edition, TERMS, lent));
            assert_eq!(refusal, expected);
        }
        assert_eq!(run_pixels(picture, TERMS, CELLS), Err(Error::Refused(expected)));
    }
}

#[test]
fn each_slice_is_needed() {
    let short = |shorten: fn(&mut Slices), pixels: &[u8]| {
        let mut slices = Slices::of(row_of(2), CELLS);
        shorten(&mut slices);
        let picture = Picture::of(pixels, row_of(2));
        crate::support::refused(slices, |lent| run_picture(picture, Edition::Rust, TERMS, lent))
    };
    let known = pixels(&[Colour::Red, Colour::Blue]);
    let unknown = [pixel(Colour::Red), UNKNOWN].concat();
    let place = Refusal::Pixel { row: 0, column: 1 };
    let colours = |slices: &mut Slices| slices.colours.truncate(1);
    assert_eq!((short(colours, &known), short(colours, &unknown)), (Refusal::Room, Refusal::Room));
    let in_table: [fn(&mut Slices); 4] = [
        |slices| slices.table[0].truncate(1),
        |slices| slices.table[1].truncate(9),
        |slices| slices.table[2].truncate(15),
        |slices| slices.table[3].truncate(1),
    ];
    for shorten in in_table {
        assert_eq!((short(shorten, &known), short(shorten, &unknown)), (Refusal::Room, place));
    }
}
