//! The functions of the archive, on slices.
//!
//! C has a slice as a pointer and a length, and the archive wants no null pointer. The pointer of a Rust slice is never
//! null: that of an empty one dangles, but it is aligned and not null, and the archive reads no element of it. `&mut`
//! slices can't overlap, so neither can those that are written. `bool` is one byte, 0 or 1, on both sides.
use crate::{HistoryRoom, PictureRoom, RunRoom, Shape, Table, TableRoom, Terms, VisitsRoom};

#[cfg(not(target_arch = "x86_64"))]
compile_error!("libpiet_c.a is for x86-64");

#[cfg(test)]
mod tests;

extern "C" {
    fn piet_classify(
        pixels: *const u8,
        pixels_length: usize,
        height: usize,
        width: usize,
        setting: u8,
        colours: *mut u8,
        colours_length: usize,
        answer: *mut u64,
        answer_length: usize,
    ) -> u32;
    fn piet_build(
        colours: *const u8,
        colours_length: usize,
        height: usize,
        width: usize,
        codel: usize,
        edition: u32,
        map: *mut u32,
        map_length: usize,
        rows: *mut u32,
        rows_length: usize,
        exits: *mut u32,
        exits_length: usize,
        work: *mut u32,
        work_length: usize,
        answer: *mut u64,
        answer_length: usize,
    ) -> u32;
    fn piet_label(
        colour: u8,
        row: usize,
        column: usize,
        out: *mut u8,
        out_length: usize,
        answer: *mut u64,
        answer_length: usize,
    ) -> u32;
    fn piet_determine_runs_forever(
        n: usize,
        rows: *const u32,
        rows_length: usize,
        exits: *const u32,
        exits_length: usize,
        answer: *mut u64,
        answer_length: usize,
    ) -> u32;
    fn piet_run(
        n: usize,
        rows: *const u32,
        rows_length: usize,
        exits: *const u32,
        exits_length: usize,
        edition: u32,
        limit: u64,
        abstract_mode: bool,
        input: *const u8,
        input_length: usize,
        stack: *mut i64,
        stack_length: usize,
        kinds: *mut u8,
        kinds_length: usize,
        values: *mut i64,
        values_length: usize,
        answer: *mut u64,
        answer_length: usize,
    ) -> u32;
    fn piet_visits(
        n: usize,
        rows: *const u32,
        rows_length: usize,
        exits: *const u32,
        exits_length: usize,
        edition: u32,
        limit: u64,
        abstract_mode: bool,
        input: *const u8,
        input_length: usize,
        stack: *mut i64,
        stack_length: usize,
        kinds: *mut u8,
        kinds_length: usize,
        values: *mut i64,
        values_length: usize,
        visits: *mut u64,
        visits_length: usize,
        unvisited: *mut u32,
        unvisited_length: usize,
        answer: *mut u64,
        answer_length: usize,
    ) -> u32;
    fn piet_history(
        n: usize,
        rows: *const u32,
        rows_length: usize,
        exits: *const u32,
        exits_length: usize,
        edition: u32,
        limit: u64,
        abstract_mode: bool,
        input: *const u8,
        input_length: usize,
        stack: *mut i64,
        stack_length: usize,
        kinds: *mut u8,
        kinds_length: usize,
        values: *mut i64,
        values_length: usize,
        taken: *mut u32,
        taken_length: usize,
        answer: *mut u64,
        answer_length: usize,
    ) -> u32;
    fn piet_run_picture(
        pixels: *const u8,
        pixels_length: usize,
        height: usize,
        width: usize,
        setting: u8,
        codel: usize,
        edition: u32,
        limit: u64,
        abstract_mode: bool,
        input: *const u8,
        input_length: usize,
        colours: *mut u8,
        colours_length: usize,
        map: *mut u32,
        map_length: usize,
        rows: *mut u32,
        rows_length: usize,
        exits: *mut u32,
        exits_length: usize,
        work: *mut u32,
        work_length: usize,
        stack: *mut i64,
        stack_length: usize,
        kinds: *mut u8,
        kinds_length: usize,
        values: *mut i64,
        values_length: usize,
        answer: *mut u64,
        answer_length: usize,
    ) -> u32;
    fn piet_read_p6(
        file: *const u8,
        file_length: usize,
        pixels: *mut u8,
        pixels_length: usize,
        answer: *mut u64,
        answer_length: usize,
    ) -> u32;
    fn piet_write_p6(
        pixels: *const u8,
        pixels_length: usize,
        height: usize,
        width: usize,
        file: *mut u8,
        file_length: usize,
        answer: *mut u64,
        answer_length: usize,
    ) -> u32;
}

pub fn classify(
    pixels: &[u8],
    (height, width): (usize, usize),
    setting: u8,
    colours: &mut [u8],
    answer: &mut [u64; 2],
) -> u32 {
    // SAFETY: each pointer comes with the length of its slice
    unsafe {
        piet_classify(
            pixels.as_ptr(),
            pixels.len(),
            height,
            width,
            setting,
            colours.as_mut_ptr(),
            colours.len(),
            answer.as_mut_ptr(),
            answer.len(),
        )
    }
}

/// The edition may have any number and the answer any length, so that wrong ones can be tried.
pub fn build(colours: &[u8], shape: Shape, edition: u32, room: TableRoom, answer: &mut [u64]) -> u32 {
    // SAFETY: each pointer comes with the length of its slice
    unsafe {
        piet_build(
            colours.as_ptr(),
            colours.len(),
            shape.height,
            shape.width,
            shape.codel,
            edition,
            room.map.as_mut_ptr(),
            room.map.len(),
            room.rows.as_mut_ptr(),
            room.rows.len(),
            room.exits.as_mut_ptr(),
            room.exits.len(),
            room.work.as_mut_ptr(),
            room.work.len(),
            answer.as_mut_ptr(),
            answer.len(),
        )
    }
}

pub fn label(colour: u8, (row, column): (usize, usize), out: &mut [u8], answer: &mut [u64; 1]) -> u32 {
    let (o, a) = (out.as_mut_ptr(), answer.as_mut_ptr());
    // SAFETY: each pointer comes with the length of its slice
    unsafe { piet_label(colour, row, column, o, out.len(), a, answer.len()) }
}

pub fn determine_runs_forever(table: Table, answer: &mut [u64; 1]) -> u32 {
    let Table { regions, rows, exits } = table;
    let (r, e, a) = (rows.as_ptr(), exits.as_ptr(), answer.as_mut_ptr());
    // SAFETY: each pointer comes with the length of its slice
    unsafe { piet_determine_runs_forever(regions, r, rows.len(), e, exits.len(), a, answer.len()) }
}

/// The edition may have any number and the answer any length, as for [`build`].
pub fn run(table: Table, edition: u32, terms: Terms, room: RunRoom, answer: &mut [u64]) -> u32 {
    // SAFETY: each pointer comes with the length of its slice
    unsafe {
        piet_run(
            table.regions,
            table.rows.as_ptr(),
            table.rows.len(),
            table.exits.as_ptr(),
            table.exits.len(),
            edition,
            terms.limit,
            terms.abstract_mode,
            terms.input.as_ptr(),
            terms.input.len(),
            room.stack.as_mut_ptr(),
            room.stack.len(),
            room.kinds.as_mut_ptr(),
            room.kinds.len(),
            room.values.as_mut_ptr(),
            room.values.len(),
            answer.as_mut_ptr(),
            answer.len(),
        )
    }
}

/// The edition may have any number and the answer any length, as for [`build`].
pub fn visits(table: Table, edition: u32, terms: Terms, room: VisitsRoom, answer: &mut [u64]) -> u32 {
    let VisitsRoom { run, visits, unvisited } = room;
    // SAFETY: each pointer comes with the length of its slice
    unsafe {
        piet_visits(
            table.regions,
            table.rows.as_ptr(),
            table.rows.len(),
            table.exits.as_ptr(),
            table.exits.len(),
            edition,
            terms.limit,
            terms.abstract_mode,
            terms.input.as_ptr(),
            terms.input.len(),
            run.stack.as_mut_ptr(),
            run.stack.len(),
            run.kinds.as_mut_ptr(),
            run.kinds.len(),
            run.values.as_mut_ptr(),
            run.values.len(),
            visits.as_mut_ptr(),
            visits.len(),
            unvisited.as_mut_ptr(),
            unvisited.len(),
            answer.as_mut_ptr(),
            answer.len(),
        )
    }
}

/// The edition may have any number and the answer any length, as for [`build`].
pub fn history(table: Table, edition: u32, terms: Terms, room: HistoryRoom, answer: &mut [u64]) -> u32 {
    let HistoryRoom { run, taken } = room;
    // SAFETY: each pointer comes with the length of its slice
    unsafe {
        piet_history(
            table.regions,
            table.rows.as_ptr(),
            table.rows.len(),
            table.exits.as_ptr(),
            table.exits.len(),
            edition,
            terms.limit,
            terms.abstract_mode,
            terms.input.as_ptr(),
            terms.input.len(),
            run.stack.as_mut_ptr(),
            run.stack.len(),
            run.kinds.as_mut_ptr(),
            run.kinds.len(),
            run.values.as_mut_ptr(),
            run.values.len(),
            taken.as_mut_ptr(),
            taken.len(),
            answer.as_mut_ptr(),
            answer.len(),
        )
    }
}

/// Pixels, their shape, and the setting for unknown ones by its number.
pub type Painted<'a> = (&'a [u8], Shape, u8);

/// The edition may have any number and the answer any length, as for [`build`].
pub fn run_picture(
    picture: Painted,
    edition: u32,
    terms: Terms,
    room: PictureRoom,
    answer: &mut [u64],
) -> u32 {
    let (pixels, shape, setting) = picture;
    let PictureRoom { colours, table, run } = room;
    // SAFETY: each pointer comes with the length of its slice
    unsafe {
        piet_run_picture(
            pixels.as_ptr(),
            pixels.len(),
            shape.height,
            shape.width,
            setting,
            shape.codel,
            edition,
            terms.limit,
            terms.abstract_mode,
            terms.input.as_ptr(),
            terms.input.len(),
            colours.as_mut_ptr(),
            colours.len(),
            table.map.as_mut_ptr(),
            table.map.len(),
            table.rows.as_mut_ptr(),
            table.rows.len(),
            table.exits.as_mut_ptr(),
            table.exits.len(),
            table.work.as_mut_ptr(),
            table.work.len(),
            run.stack.as_mut_ptr(),
            run.stack.len(),
            run.kinds.as_mut_ptr(),
            run.kinds.len(),
            run.values.as_mut_ptr(),
            run.values.len(),
            answer.as_mut_ptr(),
            answer.len(),
        )
    }
}

pub fn read_p6(file: &[u8], pixels: &mut [u8], answer: &mut [u64; 2]) -> u32 {
    let (f, p, a) = (file.as_ptr(), pixels.as_mut_ptr(), answer.as_mut_ptr());
    // SAFETY: each pointer comes with the length of its slice
    unsafe { piet_read_p6(f, file.len(), p, pixels.len(), a, answer.len()) }
}

pub fn write_p6(
    pixels: &[u8],
    (height, width): (usize, usize),
    file: &mut [u8],
    answer: &mut [u64; 1],
) -> u32 {
    let (p, f, a) = (pixels.as_ptr(), file.as_mut_ptr(), answer.as_mut_ptr());
    // SAFETY: each pointer comes with the length of its slice
    unsafe { piet_write_p6(p, pixels.len(), height, width, f, file.len(), a, answer.len()) }
}
