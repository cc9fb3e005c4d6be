//! What the calls are lent, and what a run goes by.

/// What a run goes by, apart from its table or picture.
#[derive(Clone, Copy, Debug, PartialEq, Eq, Hash)]
pub struct Terms<'a> {
    /// The most steps.
    pub limit: u64,
    /// Whether an input instruction reads nothing, and the run stops after it.
    pub abstract_mode: bool,
    /// The bytes that input instructions read, by lines.
    pub input: &'a [u8],
}

/// The slices that building is lent. With G codels it needs G, 5 G, 8 G and G cells.
#[derive(Debug)]
pub struct TableRoom<'a> {
    /// The region of each codel, row by row.
    pub map: &'a mut [u32],
    /// Five cells a region; see [`crate::Region`].
    pub rows: &'a mut [u32],
    /// Eight cells a region; see [`crate::Attempt`].
    pub exits: &'a mut [u32],
    /// Cells to work in, left 0.
    pub work: &'a mut [u32],
}

/// The slices that a run is lent, of any length. The shorter of `kinds` and `values` is the outputs' room.
#[derive(Debug)]
pub struct RunRoom<'a> {
    /// The stack; cell 0 is the bottom.
    pub stack: &'a mut [i64],
    /// The kind of each output; see [`crate::Output::of`].
    pub kinds: &'a mut [u8],
    /// The value of each output.
    pub values: &'a mut [i64],
}

/// The slices that a run is lent whose visits are counted. A table of n regions needs n cells in the last two.
#[derive(Debug)]
pub struct VisitsRoom<'a> {
    /// The run's room.
    pub run: RunRoom<'a>,
    /// How often each region was entered.
    pub visits: &'a mut [u64],
    /// The nodes that were never entered, by their region numbers in rising order; then zeros up to n cells.
    pub unvisited: &'a mut [u32],
}

/// The slices that a run is lent whose exits are kept.
#[derive(Debug)]
pub struct HistoryRoom<'a> {
    /// The run's room.
    pub run: RunRoom<'a>,
    /// The exits that were taken, as far as there are cells; see [`crate::Exit::of`].
    pub taken: &'a mut [u32],
}

/// The slices that the run of a picture is lent: those of classifying, of building and of running.
#[derive(Debug)]
pub struct PictureRoom<'a> {
    /// The colour number of each pixel: height x width cells.
    pub colours: &'a mut [u8],
    /// The table's room.
    pub table: TableRoom<'a>,
    /// The run's room.
    pub run: RunRoom<'a>,
}
