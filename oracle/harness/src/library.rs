//! The functions of the archive, on slices. Each returns 0 for done, or the refusal's number.

#[link(name = "piet_c", kind = "static")]
extern "C" {
    #[cfg(feature = "classify")]
    fn piet_classify(
        pixels: *const u8,
        pixels_length: usize,
        height: usize,
        width: usize,
        setting: u8,
        colours: *mut u8,
        colours_length: usize,
        answer: *mut u64,
        answer_length: usize,
    ) -> u32;
    #[cfg(feature = "build")]
    fn piet_build(
        colours: *const u8,
        colours_length: usize,
        height: usize,
        width: usize,
        codel: usize,
        edition: u32,
        map: *mut u32,
        map_length: usize,
        rows: *mut u32,
        rows_length: usize,
        exits: *mut u32,
        exits_length: usize,
        work: *mut u32,
        work_length: usize,
        answer: *mut u64,
        answer_length: usize,
    ) -> u32;
    #[cfg(feature = "label")]
    fn piet_label(
        colour: u8,
        row: usize,
        column: usize,
        out: *mut u8,
        out_length: usize,
        answer: *mut u64,
        answer_length: usize,
    ) -> u32;
    #[cfg(feature = "forever")]
    fn piet_determine_runs_forever(
        n: usize,
        rows: *const u32,
        rows_length: usize,
        exits: *const u32,
        exits_length: usize,
        answer: *mut u64,
        answer_length: usize,
    ) -> u32;
    #[cfg(feature = "run")]
    fn piet_run(
        n: usize,
        rows: *const u32,
        rows_length: usize,
        exits: *const u32,
        exits_length: usize,
        edition: u32,
        limit: u64,
        abstract_mode: bool,
        input: *const u8,
        input_length: usize,
        stack: *mut i64,
        stack_length: usize,
        kinds: *mut u8,
        kinds_length: usize,
        values: *mut i64,
        values_length: usize,
        answer: *mut u64,
        answer_length: usize,
    ) -> u32;
    #[cfg(feature = "visits")]
    fn piet_visits(
        n: usize,
        rows: *const u32,
        rows_length: usize,
        exits: *const u32,
        exits_length: usize,
        edition: u32,
        limit: u64,
        abstract_mode: bool,
        input: *const u8,
        input_length: usize,
        stack: *mut i64,
        stack_length: usize,
        kinds: *mut u8,
        kinds_length: usize,
        values: *mut i64,
        values_length: usize,
        visits: *mut u64,
        visits_length: usize,
        unvisited: *mut u32,
        unvisited_length: usize,
        answer: *mut u64,
        answer_length: usize,
    ) -> u32;
    #[cfg(feature = "history")]
    fn piet_history(
        n: usize,
        rows: *const u32,
        rows_length: usize,
        exits: *const u32,
        exits_length: usize,
        edition: u32,
        limit: u64,
        abstract_mode: bool,
        input: *const u8,
        input_length: usize,
        stack: *mut i64,
        stack_length: usize,
        kinds: *mut u8,
        kinds_length: usize,
        values: *mut i64,
        values_length: usize,
        taken: *mut u32,
        taken_length: usize,
        answer: *mut u64,
        answer_length: usize,
    ) -> u32;
    #[cfg(feature = "picture")]
    fn piet_run_picture(
        pixels: *const u8,
        pixels_length: usize,
        height: usize,
        width: usize,
        setting: u8,
        codel: usize,
        edition: u32,
        limit: u64,
        abstract_mode: bool,
        input: *const u8,
        input_length: usize,
        colours: *mut u8,
        colours_length: usize,
        map: *mut u32,
        map_length: usize,
        rows: *mut u32,
        rows_length: usize,
        exits: *mut u32,
        exits_length: usize,
        work: *mut u32,
        work_length: usize,
        stack: *mut i64,
        stack_length: usize,
        kinds: *mut u8,
        kinds_length: usize,
        values: *mut i64,
        values_length: usize,
        answer: *mut u64,
        answer_length: usize,
    ) -> u32;
    #[cfg(feature = "p6")]
    fn piet_read_p6(
        file: *const u8,
        file_length: usize,
        pixels: *mut u8,
        pixels_length: usize,
        answer: *mut u64,
        answer_length: usize,
    ) -> u32;
    #[cfg(feature = "p6")]
    fn piet_write_p6(
        pixels: *const u8,
        pixels_length: usize,
        height: usize,
        width: usize,
        file: *mut u8,
        file_length: usize,
        answer: *mut u64,
        answer_length: usize,
    ) -> u32;
}

#[cfg(feature = "classify")]
pub fn classify(
    pixels: &[u8],
    (height, width): (usize, usize),
    setting: u8,
    colours: &mut [u8],
    answer: &mut [u64],
) -> u32 {
    // SAFETY: each pointer comes with the length of its slice
    unsafe {
        piet_classify(
            pixels.as_ptr(),
            pixels.len(),
            height,
            width,
            setting,
            colours.as_mut_ptr(),
            colours.len(),
            answer.as_mut_ptr(),
            answer.len(),
        )
    }
}

/// The four slices that building is lent.
#[cfg(feature = "build")]
pub struct Lent {
    pub map: Vec<u32>,
    pub rows: Vec<u32>,
    pub exits: Vec<u32>,
    pub work: Vec<u32>,
}

#[cfg(feature = "build")]
pub fn build(
    colours: &[u8],
    (height, width, codel): (usize, usize, usize),
    edition: u32,
    lent: &mut Lent,
    answer: &mut [u64],
) -> u32 {
    // SAFETY: each pointer comes with the length of its slice
    unsafe {
        piet_build(
            colours.as_ptr(),
            colours.len(),
            height,
            width,
            codel,
            edition,
            lent.map.as_mut_ptr(),
            lent.map.len(),
            lent.rows.as_mut_ptr(),
            lent.rows.len(),
            lent.exits.as_mut_ptr(),
            lent.exits.len(),
            lent.work.as_mut_ptr(),
            lent.work.len(),
            answer.as_mut_ptr(),
            answer.len(),
        )
    }
}

#[cfg(feature = "label")]
pub fn label(colour: u8, (row, column): (usize, usize), out: &mut [u8], answer: &mut [u64]) -> u32 {
    let (o, a) = (out.as_mut_ptr(), answer.as_mut_ptr());
    // SAFETY: each pointer comes with the length of its slice
    unsafe { piet_label(colour, row, column, o, out.len(), a, answer.len()) }
}

/// A table as it is lent, which the named number of regions need not fit.
#[cfg(any(feature = "forever", feature = "run"))]
#[derive(Clone, Debug)]
pub struct Table {
    pub n: usize,
    pub rows: Vec<u32>,
    pub exits: Vec<u32>,
}

#[cfg(feature = "forever")]
pub fn determine_runs_forever(table: &Table, answer: &mut [u64]) -> u32 {
    let Table { n, rows, exits } = table;
    let (r, e, a) = (rows.as_ptr(), exits.as_ptr(), answer.as_mut_ptr());
    // SAFETY: each pointer comes with the length of its slice
    unsafe { piet_determine_runs_forever(*n, r, rows.len(), e, exits.len(), a, answer.len()) }
}

/// The numbers that a run answers.
#[cfg(feature = "run")]
pub const RUN_ANSWER: usize = 12;

/// The three slices that a run is lent.
#[cfg(feature = "run")]
pub struct Space {
    pub stack: Vec<i64>,
    pub kinds: Vec<u8>,
    pub values: Vec<i64>,
}

#[cfg(feature = "run")]
pub fn run(
    table: &Table,
    edition: u32,
    terms: &crate::machine::Terms,
    space: &mut Space,
    answer: &mut [u64],
) -> u32 {
    // SAFETY: each pointer comes with the length of its slice
    unsafe {
        piet_run(
            table.n,
            table.rows.as_ptr(),
            table.rows.len(),
            table.exits.as_ptr(),
            table.exits.len(),
            edition,
            terms.limit,
            terms.is_abstract,
            terms.input.as_ptr(),
            terms.input.len(),
            space.stack.as_mut_ptr(),
            space.stack.len(),
            space.kinds.as_mut_ptr(),
            space.kinds.len(),
            space.values.as_mut_ptr(),
            space.values.len(),
            answer.as_mut_ptr(),
            answer.len(),
        )
    }
}

/// The numbers that a run with its visits counted answers: those of the run, and the count of nodes never entered.
#[cfg(feature = "visits")]
pub const VISITS_ANSWER: usize = RUN_ANSWER + 1;

/// The slices that a run with its visits counted is lent, but for its answer.
#[cfg(feature = "visits")]
pub struct Counting {
    pub space: Space,
    pub visits: Vec<u64>,
    pub unvisited: Vec<u32>,
}

#[cfg(feature = "visits")]
pub fn visits(
    table: &Table,
    edition: u32,
    terms: &crate::machine::Terms,
    lent: &mut Counting,
    answer: &mut [u64],
) -> u32 {
    let Counting { space, visits, unvisited } = lent;
    // SAFETY: each pointer comes with the length of its slice
    unsafe {
        piet_visits(
            table.n,
            table.rows.as_ptr(),
            table.rows.len(),
            table.exits.as_ptr(),
            table.exits.len(),
            edition,
            terms.limit,
            terms.is_abstract,
            terms.input.as_ptr(),
            terms.input.len(),
            space.stack.as_mut_ptr(),
            space.stack.len(),
            space.kinds.as_mut_ptr(),
            space.kinds.len(),
            space.values.as_mut_ptr(),
            space.values.len(),
            visits.as_mut_ptr(),
            visits.len(),
            unvisited.as_mut_ptr(),
            unvisited.len(),
            answer.as_mut_ptr(),
            answer.len(),
        )
    }
}

/// The slices that a run whose exits are kept is lent, but for its answer.
#[cfg(feature = "history")]
pub struct Recording {
    pub space: Space,
    pub taken: Vec<u32>,
}

#[cfg(feature = "history")]
pub fn history(
    table: &Table,
    edition: u32,
    terms: &crate::machine::Terms,
    lent: &mut Recording,
    answer: &mut [u64],
) -> u32 {
    let Recording { space, taken } = lent;
    // SAFETY: each pointer comes with the length of its slice
    unsafe {
        piet_history(
            table.n,
            table.rows.as_ptr(),
            table.rows.len(),
            table.exits.as_ptr(),
            table.exits.len(),
            edition,
            terms.limit,
            terms.is_abstract,
            terms.input.as_ptr(),
            terms.input.len(),
            space.stack.as_mut_ptr(),
            space.stack.len(),
            space.kinds.as_mut_ptr(),
            space.kinds.len(),
            space.values.as_mut_ptr(),
            space.values.len(),
            taken.as_mut_ptr(),
            taken.len(),
            answer.as_mut_ptr(),
            answer.len(),
        )
    }
}

/// The numbers that the whole run of a picture answers: those of the run, and the count of regions.
#[cfg(feature = "picture")]
pub const PICTURE_ANSWER: usize = RUN_ANSWER + 1;

/// The slices that the whole run of a picture is lent, but for its answer.
#[cfg(feature = "picture")]
pub struct Whole {
    pub colours: Vec<u8>,
    pub table: Lent,
    pub space: Space,
}

#[cfg(feature = "picture")]
pub fn run_picture(
    pixels: &[u8],
    (height, width, codel): (usize, usize, usize),
    (setting, edition): (u8, u32),
    terms: &crate::machine::Terms,
    lent: &mut Whole,
    answer: &mut [u64],
) -> u32 {
    let Whole { colours, table, space } = lent;
    // SAFETY: each pointer comes with the length of its slice
    unsafe {
        piet_run_picture(
            pixels.as_ptr(),
            pixels.len(),
            height,
            width,
            setting,
            codel,
            edition,
            terms.limit,
            terms.is_abstract,
            terms.input.as_ptr(),
            terms.input.len(),
            colours.as_mut_ptr(),
            colours.len(),
            table.map.as_mut_ptr(),
            table.map.len(),
            table.rows.as_mut_ptr(),
            table.rows.len(),
            table.exits.as_mut_ptr(),
            table.exits.len(),
            table.work.as_mut_ptr(),
            table.work.len(),
            space.stack.as_mut_ptr(),
            space.stack.len(),
            space.kinds.as_mut_ptr(),
            space.kinds.len(),
            space.values.as_mut_ptr(),
            space.values.len(),
            answer.as_mut_ptr(),
            answer.len(),
        )
    }
}

#[cfg(feature = "p6")]
pub fn read_p6(file: &[u8], pixels: &mut [u8], answer: &mut [u64]) -> u32 {
    let (f, p, a) = (file.as_ptr(), pixels.as_mut_ptr(), answer.as_mut_ptr());
    // SAFETY: each pointer comes with the length of its slice
    unsafe { piet_read_p6(f, file.len(), p, pixels.len(), a, answer.len()) }
}

#[cfg(feature = "p6")]
pub fn write_p6(
    pixels: &[u8],
    (height, width): (usize, usize),
    file: &mut [u8],
    answer: &mut [u64],
) -> u32 {
    let (p, f, a) = (pixels.as_ptr(), file.as_mut_ptr(), answer.as_mut_ptr());
    // SAFETY: each pointer comes with the length of its slice
    unsafe { piet_write_p6(p, pixels.len(), height, width, f, file.len(), a, answer.len()) }
}
