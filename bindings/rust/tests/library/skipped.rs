//! Lines that IntIn skips: each reason, and the steps that have none.
use crate::support::{pixels, row_of, Slices, CELLS, TERMS};
use piet::{
    run, run_picture, run_pixels, Cc, Cells, Colour, Dp, Edition, Ended, Exit, Instruction, Picture,
    Pointers, Skipped, Status, Table, Terms, Told,
};

const NO_STACK: Cells = Cells { stack: 0, ..CELLS };

/// 2^63, the smallest number that is too large.
const LARGE: &str = "9223372036854775808";

/// Colours of a row in which every step executes the same instruction: IntIn, and CharIn.
const INT_IN: [Colour; 3] = [Colour::Red, Colour::LightBlue, Colour::DarkGreen];
const CHAR_IN: [Colour; 6] =
    [Colour::Red, Colour::Magenta, Colour::Blue, Colour::Cyan, Colour::Green, Colour::Yellow];

/// As many steps along a row of these colours as the limit says.
fn along(colours: &[Colour], terms: Terms, cells: Cells) -> Told {
    let width = 1 + terms.limit as usize;
    let row: Vec<Colour> = colours.iter().copied().cycle().take(width).collect();
    run_pixels(Picture::of(&pixels(&row), row_of(width)), Edition::Rust, terms, cells).unwrap()
}

/// As many steps from a region to itself by IntIn.
fn around(terms: Terms, cells: Cells) -> Ended {
    let pointers = Pointers { dp: Dp::Right, cc: Cc::Left };
    let exit = Exit { target: 0, pointers, instruction: Instruction::IntIn }.cell();
    let table = Table { regions: 1, rows: &[6, 1, 0, 0, 1], exits: &[exit, 0, 0, 0, 0, 0, 0, 0] };
    let ended = |edition| run(table, edition, terms, Slices::of(row_of(1), cells).lent().run).unwrap();
    // what IntIn takes is the same in both editions
    assert_eq!(ended(Edition::Page), ended(Edition::Rust));
    ended(Edition::Rust)
}

/// The end of IntIn, so many times, by a picture and by a table: they differ in the region alone.
fn read(times: u64, terms: Terms, cells: Cells) -> Ended {
    let terms = Terms { limit: times, ..terms };
    let ended = around(terms, cells);
    assert_eq!(Ended { region: 0, ..along(&INT_IN, terms, cells).ended }, ended);
    ended
}

fn input(input: &[u8]) -> Terms<'_> {
    Terms { input, ..TERMS }
}

/// What is counted where each of these lines is read once, with a newline and, as the last line, without.
fn each_is(reason: Skipped, lines: &[&str]) {
    for line in lines {
        for bytes in [line.to_string(), format!("{line}\n")] {
            let ended = read(1, input(bytes.as_bytes()), CELLS);
            let expected = (Status::MaxSteps, 1, bytes.len(), reason);
            assert_eq!((ended.status, ended.steps, ended.used, ended.skipped), expected, "{bytes:?}");
            assert_eq!(ended.depth == 1, reason == Skipped::NONE, "{bytes:?}");
        }
    }
}

#[test]
fn numbers() {
    let lines = ["7", "\u{3000}+7\r", "-0", "9223372036854775807", "-9223372036854775808"];
    each_is(Skipped::NONE, &lines);
    each_is(Skipped::NONE, &["0000000000000000000000000005", "-0009223372036854775808"]);
}

#[test]
fn blank_lines() {
    let blank = Skipped { blank: 1, ..Skipped::NONE };
    each_is(blank, &[" ", "\r", "\u{3000}", " \t\u{b}\u{c}\u{85}\u{a0}\u{2028}"]);
    assert_eq!(read(1, input(b"\n"), CELLS).skipped, blank);
}

#[test]
fn lines_that_are_no_numbers() {
    let not_number = Skipped { not_number: 1, ..Skipped::NONE };
    each_is(not_number, &["x", "+", "-", "- 5", "+-5", "1 2", "1.0", "0x10", "5-", "/", ":", "\u{ff15}"]);
    each_is(not_number, &["\u{feff}5", "5\0", "5\u{200b}"]);
}

/// The form comes first: digits that are too many are no number where something else follows them.
#[test]
fn too_many_digits_and_more() {
    let not_number = Skipped { not_number: 1, ..Skipped::NONE };
    each_is(not_number, &["9223372036854775808x", "-9223372036854775809-", "99999999999999999999 9"]);
    each_is(not_number, &[&format!("{}.", "9".repeat(1_000))]);
}

#[test]
fn numbers_out_of_range() {
    let out_of_range = Skipped { out_of_range: 1, ..Skipped::NONE };
    each_is(out_of_range, &[LARGE, " +9223372036854775808\u{a0}", "-9223372036854775809"]);
    // 2^64 and more would be small again where they wrap
    each_is(out_of_range, &["18446744073709551616", "-18446744073709551621", "36893488147419103237"]);
    each_is(out_of_range, &["0009223372036854775808", &"9".repeat(1_000)]);
}

/// Only where no byte is left: after a last newline there is no line, and blanks without a newline are one.
#[test]
fn the_end_of_the_input() {
    let ended = |times, bytes| read(times, input(bytes), CELLS).skipped;
    assert_eq!(ended(1, b""), Skipped { ended: 1, ..Skipped::NONE });
    assert_eq!(ended(2, b"5\n"), Skipped { ended: 1, ..Skipped::NONE });
    assert_eq!(ended(2, b"5"), Skipped { ended: 1, ..Skipped::NONE });
    assert_eq!(ended(2, b"  "), Skipped { ended: 1, blank: 1, ..Skipped::NONE });
    assert_eq!(ended(9, b"\n\n"), Skipped { ended: 7, blank: 2, ..Skipped::NONE });
}

/// Another count of each, met in no order; numbers between them count nowhere.
#[test]
fn every_reason_at_once() {
    let skipped = |lines: &[&str]| read(12, input(lines.join("\n").as_bytes()), CELLS).skipped;
    let lines = ["x", "7", LARGE, "", "+", " ", "-8", LARGE, ".", LARGE, LARGE];
    assert_eq!(skipped(&lines), Skipped { ended: 1, blank: 2, not_number: 3, out_of_range: 4 });
    let lines = ["x", "7", " ", LARGE, "", "-8", LARGE, "\t"];
    assert_eq!(skipped(&lines), Skipped { ended: 4, blank: 3, not_number: 1, out_of_range: 2 });
}

/// The limit is the last step that counts.
#[test]
fn up_to_the_limit() {
    for times in 0..6 {
        let ended = read(times, input(b""), CELLS);
        assert_eq!((ended.steps, ended.skipped), (times, Skipped { ended: times, ..Skipped::NONE }));
    }
}

/// A line that is skipped needs no room, so that its step is taken; that of a number is not.
#[test]
fn a_full_stack() {
    let ended = read(1, input(b"\n"), NO_STACK);
    assert_eq!((ended.status, ended.steps), (Status::MaxSteps, 1));
    assert_eq!(ended.skipped, Skipped { blank: 1, ..Skipped::NONE });
    let ended = read(1, input(b"5\n"), NO_STACK);
    assert_eq!((ended.status, ended.steps, ended.skipped), (Status::StackFull, 0, Skipped::NONE));
    let ended = read(5, input(b"5\nx\n\n6\n\n"), Cells { stack: 1, ..CELLS });
    assert_eq!((ended.status, ended.steps, ended.used), (Status::StackFull, 3, 5));
    assert_eq!(ended.skipped, Skipped { blank: 1, not_number: 1, ..Skipped::NONE });
}

#[test]
fn abstract_mode() {
    for bytes in [&b""[..], b"\n", b"x\n", b"99999999999999999999\n"] {
        let ended = read(2, Terms { abstract_mode: true, ..input(bytes) }, CELLS);
        assert_eq!((ended.status, ended.steps, ended.used), (Status::NeedsInput, 1, 0));
        assert_eq!(ended.skipped, Skipped::NONE);
    }
}

/// A line that is not UTF-8 stops the run, whatever else it is.
#[test]
fn bad_input() {
    let ended = read(1, input(b"99999999999999999999\xFF"), CELLS);
    assert_eq!((ended.status, ended.steps, ended.skipped), (Status::BadInput, 0, Skipped::NONE));
    let ended = read(2, input(b"\n\xFF\n"), CELLS);
    assert_eq!((ended.status, ended.steps, ended.used), (Status::BadInput, 1, 1));
    assert_eq!(ended.skipped, Skipped { blank: 1, ..Skipped::NONE });
}

#[test]
fn characters() {
    for bytes in [&b""[..], b"\n", b"x"] {
        let told = along(&CHAR_IN, Terms { limit: 3, ..input(bytes) }, CELLS);
        assert_eq!((told.ended.steps, told.ended.skipped), (3, Skipped::NONE));
        assert_eq!(told.stack.len(), bytes.len());
    }
}

/// In one call over lent slices the counts stand before the count of regions.
#[test]
fn in_one_call() {
    let (row, terms) = (pixels(&INT_IN), Terms { limit: 2, ..input(b"x") });
    let mut slices = Slices::of(row_of(3), CELLS);
    let pictured = run_picture(Picture::of(&row, row_of(3)), Edition::Rust, terms, slices.lent()).unwrap();
    let one_each = Skipped { ended: 1, not_number: 1, ..Skipped::NONE };
    assert_eq!((pictured.ended.skipped, pictured.regions), (one_each, 3));
}

/// The reasons that occurred are displayed in a line of their own, and where there is none there is no such line.
#[test]
fn displayed() {
    let told = |times, bytes| {
        let told = along(&INT_IN, Terms { limit: times, ..input(bytes) }, CELLS).to_string();
        told.split_once("\nout 0\n").map(|(_, after)| after.to_string())
    };
    assert_eq!(told(2, b"5\n6\n").as_deref(), Some(""));
    assert_eq!(told(2, b"5\n\n").as_deref(), Some("skipped blank=1\n"));
    assert_eq!(told(3, b"99999999999999999999\n\n\n").as_deref(), Some("skipped blank=2 out_of_range=1\n"));
    let all = Skipped { ended: 1, blank: 2, not_number: 3, out_of_range: u64::MAX };
    assert_eq!(all.to_string(), "ended=1 blank=2 not_number=3 out_of_range=18446744073709551615");
    assert_eq!(Skipped::NONE.to_string(), "");
}
