//! Netpbm P6 files: read, written, read back, and run.
use crate::support::{pixel, pixels, row_of, CELLS, PATTERN, TERMS};
use piet::{
    read_p6, run_pixels, write_p6, Colour, Edition, Error, Picture, Pixels, Refusal, Shape, Status, P6_HEADER,
};

const GOOD: &[u8] = b"P6 1 1 255\nabc";

/// Height and width.
type Sides = (usize, usize);

fn shape((height, width): Sides) -> Shape {
    Shape { height, width, codel: 1 }
}

/// The refusal of a read, which has to leave the lent bytes as they were.
fn read_refused(file: &[u8], room: usize) -> Refusal {
    let mut lent = vec![PATTERN; room];
    let refusal = read_p6(file, &mut lent).unwrap_err();
    assert!(lent.iter().all(|&byte| byte == PATTERN));
    refusal
}

/// The refusal of a write, which has to leave the lent bytes as they were.
fn write_refused(pixels: &[u8], sides: Sides, room: usize) -> Refusal {
    let mut lent = vec![PATTERN; room];
    let refusal = write_p6(pixels, sides, &mut lent).unwrap_err();
    assert!(lent.iter().all(|&byte| byte == PATTERN));
    refusal
}

/// A file with as many pixel bytes as its sides ask for.
fn file_of((height, width): Sides) -> Vec<u8> {
    [format!("P6 {width} {height} 255\n").into_bytes(), vec![b'a'; 3 * height * width]].concat()
}

/// A file that is wrong in its later ways too gets the first refusal; with the room made it is refused alike, but for
/// the room.
#[test]
fn reading_refuses_in_order() {
    let cases: [(Refusal, &[u8], usize); 18] = [
        (Refusal::Header, b"", 0),
        (Refusal::Header, b"P6 1 1 255", 9),
        (Refusal::Header, b" P6 1 1 255\nabc", 9),
        (Refusal::Header, b"P6\x0B1 1 255\nabc", 9),
        (Refusal::Header, b"P6 1 1 255#\nabc", 9),
        (Refusal::Header, b"P6 0 1 254\nabc", 0),
        (Refusal::Header, b"P6 1 1 18446744073709551871\nabc", 9),
        (Refusal::Size, b"P6 0 1 255\n", 0),
        (Refusal::Size, b"P6 1 0 255\nabc", 0),
        (Refusal::Size, b"P6 18446744073709551617 1 255\nabc", 9),
        (Refusal::Size, b"P6 1 4294967297 255\nabc", 0),
        (Refusal::Size, &file_of((1, 1_025)), 4_096),
        (Refusal::Size, &file_of((1_025, 1)), 0),
        (Refusal::Length, b"P6 1 1 255\n", 0),
        (Refusal::Length, b"P6 1 1 255\nab", 0),
        (Refusal::Length, b"P6 1 1 255\nabc\n", 9),
        (Refusal::Length, b"P6 1024 1024 255\nabc", 9),
        (Refusal::Length, b"P6 1 1 255\r\nabc", 9),
    ];
    for (expected, file, room) in cases {
        assert_eq!(read_refused(file, room), expected, "{file:?}");
        assert_eq!(Pixels::of_p6(file), Err(Error::Refused(expected)), "{file:?}");
    }
    assert_eq!((read_refused(GOOD, 0), read_refused(GOOD, 2)), (Refusal::Room, Refusal::Room));
}

#[test]
fn files_that_are_read() {
    let cases: [(&[u8], Sides, &[u8]); 8] = [
        (GOOD, (1, 1), b"abc"),
        (b"P6 2 1 255\nabcdef", (1, 2), b"abcdef"),
        (b"P6 1 2 255\nabcdef", (2, 1), b"abcdef"),
        (b"P6#\n1#\r\n1#\n255\nabc", (1, 1), b"abc"),
        (b"P6\r\n# made by hand\r\n1\t0001\r\n0255 abc", (1, 1), b"abc"),
        (b"P6 1 1 255 #\n#", (1, 1), b"#\n#"),
        (b"P6 1 1 255\r\nab", (1, 1), b"\nab"),
        (b"P6 1#9\n2 255\tabcdef", (2, 1), b"abcdef"),
    ];
    for (file, sides, expected) in cases {
        let mut lent = vec![PATTERN; file.len()];
        assert_eq!(read_p6(file, &mut lent), Ok(sides), "{file:?}");
        assert_eq!(&lent[..expected.len()], expected);
        assert!(lent[expected.len()..].iter().all(|&byte| byte == PATTERN));
        let (height, width) = sides;
        assert_eq!(Pixels::of_p6(file), Ok(Pixels { bytes: expected.to_vec(), height, width }));
    }
}

#[test]
fn writing_refuses_in_order() {
    let cases: [(Refusal, &[u8], Sides); 9] = [
        (Refusal::Size, b"", (0, 1)),
        (Refusal::Size, b"", (1, 0)),
        (Refusal::Size, b"abc", (1_025, 1)),
        (Refusal::Size, b"abc", (1, (1 << 32) + 1)),
        (Refusal::Size, b"", (usize::MAX, usize::MAX)),
        (Refusal::Bytes, b"", (1, 1)),
        (Refusal::Bytes, b"ab", (1, 1)),
        (Refusal::Bytes, b"abcd", (1, 1)),
        (Refusal::Bytes, b"abc", (1_024, 1_024)),
    ];
    for (expected, pixels, sides) in cases {
        assert_eq!(write_refused(pixels, sides, 0), expected, "{sides:?}");
        assert_eq!(write_refused(pixels, sides, 64), expected, "{sides:?}");
        assert_eq!(Picture::of(pixels, shape(sides)).to_p6(), Err(Error::Refused(expected)), "{sides:?}");
    }
    for room in 0..14 {
        assert_eq!(write_refused(b"abc", (1, 1), room), Refusal::Room);
    }
}

/// The text with each count of digits, in room that just suffices and in more.
#[test]
fn files_that_are_written() {
    for sides in [(1, 1), (1, 2), (2, 1), (9, 10), (10, 9), (99, 100), (999, 1), (1, 1_000), (1_024, 1_024)] {
        let (height, width) = sides;
        let pixels: Vec<u8> = (0..=u8::MAX).cycle().take(3 * height * width).collect();
        let expected = [format!("P6\n{width}\n{height}\n255\n").as_bytes(), &pixels].concat();
        assert!(expected.len() <= P6_HEADER + pixels.len());
        for more in [0, 1, 9] {
            let mut lent = vec![PATTERN; expected.len() + more];
            assert_eq!(write_p6(&pixels, sides, &mut lent), Ok(expected.len()));
            assert!(lent.starts_with(&expected));
            assert!(lent[expected.len()..].iter().all(|&byte| byte == PATTERN));
        }
        assert_eq!(Picture::of(&pixels, shape(sides)).to_p6(), Ok(expected));
    }
}

#[test]
fn read_back_the_same() {
    for (height, width) in [(1, 1), (1, 7), (7, 1), (12, 34), (1_024, 1), (1, 1_024), (1_024, 1_024)] {
        let bytes: Vec<u8> = (0..=u8::MAX).rev().cycle().take(3 * height * width).collect();
        let pixels = Pixels { bytes, height, width };
        assert_eq!(Pixels::of_p6(&pixels.picture().to_p6().unwrap()), Ok(pixels));
    }
}

/// Light red and red, each of 2 x 2 pixels, as a paint program saves it.
#[test]
fn a_file_that_is_run() {
    let row = [pixel(Colour::LightRed), pixel(Colour::LightRed), pixel(Colour::Red), pixel(Colour::Red)];
    let file = [&b"P6\n# drawn by hand\n4 2\n255\n"[..], &row.concat(), &row.concat()].concat();
    let drawn = Pixels::of_p6(&file).unwrap();
    let told = run_pixels(drawn.in_codels(2), Edition::Rust, TERMS, CELLS).unwrap();
    assert_eq!(told.to_string(), "status 2\nsteps 3\nat RegRed_0_2 0 0\nstack 1 1\nout 0\n");
    // as codels of one pixel the first block has four of them
    let told = run_pixels(drawn.picture(), Edition::Rust, TERMS, CELLS).unwrap();
    assert_eq!((told.ended.status, told.stack), (Status::MaxSteps, vec![4]));
}

#[test]
fn the_written_worked_job() {
    let worked = pixels(&[Colour::LightRed, Colour::Red]);
    let file = Picture::of(&worked, row_of(2)).to_p6().unwrap();
    let told = |picture| run_pixels(picture, Edition::Rust, TERMS, CELLS).unwrap();
    let read = Pixels::of_p6(&file).unwrap();
    assert_eq!(told(read.picture()), told(Picture::of(&worked, row_of(2))));
}
