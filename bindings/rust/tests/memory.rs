//! Memory that can't be had is an error: for lengths that no machine has, and at every single request.
use piet::{run_pixels, Cells, Edition, Error, Output, Picture, Pixels, Refusal, Shape, Table, Terms};
use std::alloc::{GlobalAlloc, Layout, System};
use std::cell::Cell;

thread_local! {
    /// How many requests of this thread are still granted; none is the end of it.
    static GRANTED: Cell<Option<usize>> = const { Cell::new(None) };
}

/// The system's memory, which a test may run out of.
struct Scarce;

#[global_allocator]
static MEMORY: Scarce = Scarce;

// SAFETY: a request is either passed to the system's allocator as it is, or answered by null, which says that there is
// no memory
unsafe impl GlobalAlloc for Scarce {
    unsafe fn alloc(&self, layout: Layout) -> *mut u8 {
        match GRANTED.get() {
            Some(0) => return std::ptr::null_mut(),
            Some(more) => GRANTED.set(Some(more - 1)),
            None => {}
        }
        System.alloc(layout)
    }

    unsafe fn dealloc(&self, pointer: *mut u8, layout: Layout) {
        System.dealloc(pointer, layout)
    }
}

const PIXELS: [u8; 15] = [0xFF, 0, 0, 0xC0, 0xC0, 0xFF, 0xC0, 0xFF, 0xC0, 0xC0, 0xC0, 0, 0xFF, 0xC0, 0xC0];
const SHAPE: Shape = Shape { height: 1, width: 5, codel: 1 };
const TERMS: Terms = Terms { limit: 4, abstract_mode: false, input: b"65\n" };
const CELLS: Cells = Cells { stack: 8, outputs: 8 };

/// By IntIn from the first region to the second, and by IntOut back.
const TABLE: Table = Table {
    regions: 2,
    rows: &[6, 1, 0, 0, 1, 16, 1, 0, 1, 1],
    exits: &[2 + 16 * 524_288, 0, 0, 0, 0, 0, 0, 0, 1 + 17 * 524_288, 0, 0, 0, 0, 0, 0, 0],
};

/// The answer of a call where so many requests are granted.
fn granted<T>(requests: usize, call: impl FnOnce() -> Result<T, Error>) -> Result<T, Error> {
    GRANTED.set(Some(requests));
    let answer = call();
    GRANTED.set(None);
    answer
}

/// Eight slices and the outputs: nine requests, and each may fail.
#[test]
fn every_request_may_fail() {
    let run = || run_pixels(Picture::of(&PIXELS, SHAPE), Edition::Rust, TERMS, CELLS);
    for requests in 0..9 {
        assert_eq!(granted(requests, run), Err(Error::Memory), "with {requests} granted");
    }
    let told = granted(9, run).unwrap();
    assert_eq!(told.to_string(), "status 2\nsteps 4\nat LightRed_0_4 0 0\nstack 0\nout 2 c65 i65\n");
}

/// Five slices and the outputs.
#[test]
fn every_request_for_visits_may_fail() {
    let run = || TABLE.visits(Edition::Rust, TERMS, CELLS);
    for requests in 0..6 {
        assert_eq!(granted(requests, run), Err(Error::Memory), "with {requests} granted");
    }
    let visits = granted(6, run).unwrap();
    assert_eq!((visits.counts, visits.outputs), (vec![3, 2], vec![Output::Int(65)]));
}

/// Four slices, the exits and the outputs.
#[test]
fn every_request_for_a_history_may_fail() {
    let run = || TABLE.history(Edition::Rust, TERMS, CELLS, 3);
    for requests in 0..6 {
        assert_eq!(granted(requests, run), Err(Error::Memory), "with {requests} granted");
    }
    let history = granted(6, run).unwrap();
    assert_eq!((history.taken.len(), history.outputs), (3, vec![Output::Int(65)]));
}

/// A file that is read, and one that is written, is one request each.
#[test]
fn every_request_for_a_file_may_fail() {
    let written = || Picture::of(&PIXELS, SHAPE).to_p6();
    assert_eq!(granted(0, written), Err(Error::Memory));
    let file = granted(1, written).unwrap();
    let read = || Pixels::of_p6(&file);
    assert_eq!(granted(0, read), Err(Error::Memory));
    assert_eq!(granted(1, read).unwrap().bytes, PIXELS);
}

#[test]
fn lengths_that_no_machine_has() {
    let largest = isize::MAX as usize;
    for cells in [usize::MAX, usize::MAX / 2, largest, largest + 1, largest - 4_096, usize::MAX / 8, 1 << 60]
    {
        let picture = Picture::of(&PIXELS, SHAPE);
        for cells in [Cells { stack: cells, ..CELLS }, Cells { outputs: cells, ..CELLS }] {
            assert_eq!(run_pixels(picture, Edition::Rust, TERMS, cells), Err(Error::Memory));
            assert_eq!(TABLE.visits(Edition::Rust, TERMS, cells), Err(Error::Memory));
            assert_eq!(TABLE.history(Edition::Rust, TERMS, cells, 0), Err(Error::Memory));
        }
        // as many exits as the limit are all
        let no_limit = Terms { limit: u64::MAX, ..TERMS };
        assert_eq!(TABLE.history(Edition::Rust, no_limit, CELLS, cells), Err(Error::Memory));
        assert_eq!(TABLE.history(Edition::Rust, TERMS, CELLS, cells).unwrap().taken.len(), 4);
    }
}

/// A file of any length asks for no more than the pixels of the largest picture.
#[test]
fn files_longer_than_any_picture() {
    let mut file = b"P6 1024 1024 255\n".to_vec();
    let most = 3 * 1_024 * 1_024;
    file.resize(file.len() + most, 7);
    assert!(Pixels::of_p6(&file).unwrap().bytes.capacity() <= most);
    file.push(7);
    assert_eq!(Pixels::of_p6(&file), Err(Error::Refused(Refusal::Length)));
}

/// Sides of any size ask for no more than an accepted picture.
#[test]
fn sides_that_no_picture_has() {
    let refused = |height, width, codel| {
        let picture = Picture::of(&PIXELS, Shape { height, width, codel });
        run_pixels(picture, Edition::Rust, TERMS, CELLS).unwrap_err()
    };
    for side in [1_025, 1 << 32, usize::MAX] {
        for codel in [0, 1, usize::MAX] {
            assert_eq!(refused(side, side, codel), Error::Refused(Refusal::Size));
            assert_eq!(refused(1, side, codel), Error::Refused(Refusal::Size));
        }
    }
}

/// A count of regions that no table has asks for no more than the largest table.
#[test]
fn regions_that_no_table_has() {
    for regions in [65_537, 1 << 60, isize::MAX as usize, usize::MAX] {
        let visits = Table { regions, ..TABLE }.visits(Edition::Rust, TERMS, CELLS);
        assert_eq!(visits, Err(Error::Refused(Refusal::Table)));
    }
}
