//! The calls over lent slices.
use crate::ended::{RUN_ANSWER, RUN_PICTURE_ANSWER};
use crate::raw;
use crate::visited::VISITS_ANSWER;
use crate::{
    Colour, Edition, Ended, HistoryRoom, Picture, PictureRoom, Pictured, Refusal, RunRoom, Shape, Table,
    TableRoom, Terms, Unknown, Visited, VisitsRoom,
};

/// The colour numbers of pixels, three bytes each, into the first height x width cells of `colours`.
///
/// # Errors
///
/// Size, Bytes, Room, Pixel: the first that holds.
pub fn classify(
    pixels: &[u8],
    (height, width): (usize, usize),
    unknown: Unknown,
    colours: &mut [u8],
) -> Result<(), Refusal> {
    let mut answer = [0; 2];
    let number = raw::classify(pixels, (height, width), unknown.number(), colours, &mut answer);
    Refusal::unless_done(number, answer)
}

/// The table of a picture of one colour number a pixel, in an edition; gives the count of its regions.
///
/// # Errors
///
/// Size, Codel, Grid, Bytes, Colour, White, Room: the first that holds.
pub fn build(colours: &[u8], shape: Shape, edition: Edition, room: TableRoom) -> Result<usize, Refusal> {
    let mut answer = [0; 2];
    let number = raw::build(colours, shape, edition.number().into(), room, &mut answer);
    Refusal::unless_done(number, answer)?;
    Ok(answer[0] as usize)
}

/// The label of the region of this colour with this first pixel, into the first 22 bytes of `out`; gives its length.
///
/// # Errors
///
/// Label.
pub fn label(colour: Colour, (row, column): (usize, usize), out: &mut [u8]) -> Result<usize, Refusal> {
    let mut answer = [0; 1];
    let number = raw::label(colour.number(), (row, column), out, &mut answer);
    Refusal::unless_done(number, [0; 2])?;
    Ok(answer[0] as usize)
}

/// Whether every node of a table has an exit. This is of [`Edition::Rust`]: a table with a lost slide is refused.
///
/// # Errors
///
/// Table.
pub fn determine_runs_forever(table: Table) -> Result<bool, Refusal> {
    let mut answer = [0; 1];
    let number = raw::determine_runs_forever(table, &mut answer);
    Refusal::unless_done(number, [0; 2])?;
    Ok(answer[0] == 1)
}

/// A run over a table, in an edition. The table may have been built in the other: it is run by its exits as they stand,
/// but for a lost slide, which edition 1 refuses.
///
/// # Errors
///
/// Table.
pub fn run(table: Table, edition: Edition, terms: Terms, room: RunRoom) -> Result<Ended, Refusal> {
    let mut answer = [0; RUN_ANSWER];
    let number = raw::run(table, edition.number().into(), terms, room, &mut answer);
    Refusal::unless_done(number, [0; 2])?;
    Ok(Ended::of(answer))
}

/// A run over a table, as [`run`], with each region's visits counted: the start counts once for region 0, and each step
/// once for the region that it reaches. A step that is not taken counts nothing, and neither does a lost slide.
///
/// With n regions, the first n cells of `visits` get the counts, which together are the steps and one more; the first n
/// of `unvisited` get the nodes that were never entered, and zeros after them. The cells past n stay. A region that is
/// no node is counted and never listed. [`Table::visits`] allocates the room.
///
/// ```
/// use piet::{Edition, RunRoom, Table, Terms, VisitsRoom};
///
/// // Three nodes. The first leads to itself, and so a run enters no other.
/// let rows = [[6, 1, 0, 0, 1], [8, 1, 0, 1, 1], [10, 1, 0, 2, 1]].concat();
/// let exits = [[1, 0, 0, 0, 0, 0, 0, 0], [0; 8], [0; 8]].concat();
/// let table = Table { regions: 3, rows: &rows, exits: &exits };
/// let terms = Terms { limit: 5, abstract_mode: false, input: b"" };
///
/// let (mut visits, mut unvisited) = ([7; 4], [7; 4]);
/// let run = RunRoom { stack: &mut [], kinds: &mut [], values: &mut [] };
/// let room = VisitsRoom { run, visits: &mut visits, unvisited: &mut unvisited };
/// let visited = piet::visits(table, Edition::Rust, terms, room)?;
/// assert_eq!((visited.ended.steps, visited.unvisited), (5, 2));
/// assert_eq!((visits, unvisited), ([6, 0, 0, 7], [1, 2, 0, 7]));
/// # Ok::<(), piet::Refusal>(())
/// ```
///
/// # Errors
///
/// Table, Limit (2^64 - 1), Room (of `visits` or `unvisited`): the first that holds.
pub fn visits(table: Table, edition: Edition, terms: Terms, room: VisitsRoom) -> Result<Visited, Refusal> {
    let mut answer = [0; VISITS_ANSWER];
    let number = raw::visits(table, edition.number().into(), terms, room, &mut answer);
    Refusal::unless_done(number, [0; 2])?;
    Ok(Visited::of(answer))
}

/// A run over a table, as [`run`], with the exit of each step kept, in their order: cell i of `taken` gets that of step
/// i + 1. A slice that is shorter than the run, one without cells too, has the exits of its first steps; the cells past
/// the last step stay. [`crate::Exit::of`] reads them. The region that a step left is the one that the step before it
/// entered, or for the first step region 0. Neither a step that is not taken nor a lost slide is kept.
/// [`Table::history`] allocates the room.
///
/// ```
/// use piet::{Edition, Exit, HistoryRoom, Instruction, RunRoom, Table, Terms};
///
/// // Two nodes. Push leads from the first to the second, and Pop back.
/// let rows = [[12, 1, 0, 0, 1], [6, 1, 0, 1, 1]].concat();
/// let exits = [[524_290, 0, 0, 0, 0, 0, 0, 0], [0, 0, 0, 0, 1_310_721, 0, 0, 0]].concat();
/// let table = Table { regions: 2, rows: &rows, exits: &exits };
/// let terms = Terms { limit: 3, abstract_mode: false, input: b"" };
///
/// let (mut stack, mut taken) = ([0; 1], [7; 5]);
/// let run = RunRoom { stack: &mut stack, kinds: &mut [], values: &mut [] };
/// let room = HistoryRoom { run, taken: &mut taken };
/// let ended = piet::history(table, Edition::Rust, terms, room)?;
/// assert_eq!((ended.steps, taken), (3, [524_290, 1_310_721, 524_290, 7, 7]));
/// let back = Exit::of(taken[1]).map(|exit| (exit.target, exit.instruction));
/// assert_eq!(back, Some((0, Instruction::Pop)));
/// # Ok::<(), piet::Refusal>(())
/// ```
///
/// # Errors
///
/// Table.
pub fn history(table: Table, edition: Edition, terms: Terms, room: HistoryRoom) -> Result<Ended, Refusal> {
    let mut answer = [0; RUN_ANSWER];
    let number = raw::history(table, edition.number().into(), terms, room, &mut answer);
    Refusal::unless_done(number, [0; 2])?;
    Ok(Ended::of(answer))
}

/// The run of a picture: classifying, building and running in one call, both of these in the same edition.
///
/// # Errors
///
/// Size, Bytes, Room (of the colours), Pixel, Codel, Grid, White, Room (of the table): the first that holds.
pub fn run_picture(
    picture: Picture,
    edition: Edition,
    terms: Terms,
    room: PictureRoom,
) -> Result<Pictured, Refusal> {
    let mut answer = [0; RUN_PICTURE_ANSWER];
    let Picture { pixels, shape, unknown } = picture;
    let painted = (pixels, shape, unknown.number());
    let number = raw::run_picture(painted, edition.number().into(), terms, room, &mut answer);
    let [row, column, ..] = answer;
    Refusal::unless_done(number, [row, column])?;
    Ok(Pictured::of(answer))
}

/// The pixels of a Netpbm P6 file, three bytes each, into the first cells of `pixels`; gives height and width. As many
/// cells as the file has bytes always suffice. [`crate::Pixels::of_p6`] allocates them.
///
/// ```
/// let mut pixels = [7; 8];
/// assert_eq!(piet::read_p6(b"P6\n# two pixels\n2 1\n255\nabcdef", &mut pixels), Ok((1, 2)));
/// assert_eq!(&pixels, b"abcdef\x07\x07");
/// ```
///
/// # Errors
///
/// Header, Size, Length, Room: the first that holds.
pub fn read_p6(file: &[u8], pixels: &mut [u8]) -> Result<(usize, usize), Refusal> {
    let mut answer = [0; 2];
    let number = raw::read_p6(file, pixels, &mut answer);
    Refusal::unless_done(number, [0; 2])?;
    let [height, width] = answer.map(|cell| cell as usize);
    Ok((height, width))
}

/// A picture as a Netpbm P6 file, into the first bytes of `file`; gives the file's length. [`crate::P6_HEADER`] +
/// 3 x height x width bytes always suffice. [`Picture::to_p6`] allocates them.
///
/// ```
/// let mut file = [0; piet::P6_HEADER + 6];
/// let length = piet::write_p6(b"abcdef", (1, 2), &mut file)?;
/// assert_eq!(&file[..length], b"P6\n2\n1\n255\nabcdef");
/// # Ok::<(), piet::Refusal>(())
/// ```
///
/// # Errors
///
/// Size, Bytes, Room: the first that holds.
pub fn write_p6(pixels: &[u8], (height, width): (usize, usize), file: &mut [u8]) -> Result<usize, Refusal> {
    let mut answer = [0; 1];
    let number = raw::write_p6(pixels, (height, width), file, &mut answer);
    Refusal::unless_done(number, [0; 2])?;
    Ok(answer[0] as usize)
}
