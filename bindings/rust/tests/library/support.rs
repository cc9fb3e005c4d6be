//! What several tests share: pixels, terms, and the room of a picture's run.
use piet::{
    Cc, Cells, Colour, Dp, Edition, Ended, Exit, History, HistoryRoom, Instruction, Output, PictureRoom,
    Pointers, Refusal, RunRoom, Shape, Table, TableRoom, Terms, Unknown, Visited, Visits, VisitsRoom, EXITS,
    ROW,
};

/// What every lent cell holds before a call, to be found again where it stays.
pub const PATTERN: u8 = 0xA5;

/// A pixel that is none of the twenty colours.
pub const UNKNOWN: [u8; 3] = [1, 2, 3];

pub const TERMS: Terms = Terms { limit: 3, abstract_mode: false, input: b"" };
pub const CELLS: Cells = Cells { stack: 256, outputs: 256 };

/// The pointers that a run starts with.
pub const START: Pointers = Pointers { dp: Dp::Right, cc: Cc::Left };

/// The rows of a table by hand, by their node marks.
pub fn rows_marked(marks: &[u32]) -> Vec<u32> {
    marks.iter().flat_map(|&mark| [6, 1, 0, 0, mark]).collect()
}

/// The exits of regions that are left by one way or by none.
pub fn ways(ways: &[Option<(Instruction, u16)>]) -> Vec<u32> {
    let cell = |(instruction, target)| Exit { target, pointers: START, instruction }.cell();
    ways.iter().flat_map(|way| [way.map_or(0, cell), 0, 0, 0, 0, 0, 0, 0]).collect()
}

/// The bytes of a colour, as the page has them: a hue is made of the brighter byte in the one or two places that it
/// has, and of the darker byte in the others.
pub fn pixel(colour: Colour) -> [u8; 3] {
    match colour {
        Colour::Black => return [0; 3],
        Colour::White => return [0xFF; 3],
        _ => {}
    }
    let (hue, lightness) = (usize::from(colour.number() % 6), usize::from(colour.number() / 6));
    let (darker, brighter) = [(0x00, 0xC0), (0x00, 0xFF), (0xC0, 0xFF)][lightness];
    ["x..", "xx.", ".x.", ".xx", "..x", "x.x"][hue]
        .as_bytes()
        .iter()
        .map(|&place| if place == b'x' { brighter } else { darker })
        .collect::<Vec<u8>>()
        .try_into()
        .expect("three places")
}

pub fn pixels(colours: &[Colour]) -> Vec<u8> {
    colours.iter().flat_map(|&colour| pixel(colour)).collect()
}

/// One row of codels of one pixel.
pub fn row_of(width: usize) -> Shape {
    Shape { height: 1, width, codel: 1 }
}

/// A picture of light red (r), red (R), white (.) and black (#) codels of one pixel, with a stroke between rows.
pub fn drawn(rows: &str) -> (Vec<Colour>, Shape) {
    let colour = |letter| match letter {
        'r' => Colour::LightRed,
        'R' => Colour::Red,
        '.' => Colour::White,
        '#' => Colour::Black,
        _ => panic!("no colour is {letter}"),
    };
    let rows: Vec<&str> = rows.split('/').collect();
    let shape = Shape { height: rows.len(), width: rows[0].len(), codel: 1 };
    (rows.concat().chars().map(colour).collect(), shape)
}

/// The room of a picture's run, owned.
#[derive(Clone, Debug, PartialEq, Eq)]
pub struct Slices {
    pub colours: Vec<u8>,
    /// Map, rows, exits and work.
    pub table: [Vec<u32>; 4],
    pub stack: Vec<i64>,
    pub kinds: Vec<u8>,
    pub values: Vec<i64>,
}

impl Slices {
    /// As much as the shape and the cells ask for, every cell with the pattern.
    pub fn of(shape: Shape, cells: Cells) -> Self {
        Slices {
            colours: vec![PATTERN; shape.pixels()],
            table: [1, ROW, EXITS, 1].map(|each| vec![PATTERN.into(); each * shape.codels()]),
            stack: vec![PATTERN.into(); cells.stack],
            kinds: vec![PATTERN; cells.outputs],
            values: vec![PATTERN.into(); cells.outputs],
        }
    }

    /// No cell at all.
    pub fn none() -> Self {
        Slices::of(row_of(0), Cells { stack: 0, outputs: 0 })
    }

    pub fn lent(&mut self) -> PictureRoom<'_> {
        let Slices { colours, table: [map, rows, exits, work], stack, kinds, values } = self;
        let (table, run) = (TableRoom { map, rows, exits, work }, RunRoom { stack, kinds, values });
        PictureRoom { colours, table, run }
    }

    pub fn table(&self, regions: usize) -> Table<'_> {
        Table { regions, rows: &self.table[1], exits: &self.table[2] }
    }

    /// The outputs that these cells stand for, so many of them.
    pub fn outputs(&self, count: usize) -> Vec<Output> {
        let cells = self.kinds.iter().zip(&self.values).take(count);
        cells.map(|(&kind, &value)| Output::of(kind, value).expect("an output")).collect()
    }
}

/// The room of a run whose visits are counted, owned.
#[derive(Clone, Debug, PartialEq, Eq)]
pub struct Counting {
    pub run: Slices,
    pub visits: Vec<u64>,
    pub unvisited: Vec<u32>,
}

impl Counting {
    /// So many cells for the counts and for the list, every cell with the pattern.
    pub fn of(visits: usize, unvisited: usize, cells: Cells) -> Self {
        Counting {
            run: Slices::of(row_of(0), cells),
            visits: vec![PATTERN.into(); visits],
            unvisited: vec![PATTERN.into(); unvisited],
        }
    }

    pub fn lent(&mut self) -> VisitsRoom<'_> {
        VisitsRoom { run: self.run.lent().run, visits: &mut self.visits, unvisited: &mut self.unvisited }
    }
}

/// The room of a run whose exits are kept, owned.
#[derive(Clone, Debug, PartialEq, Eq)]
pub struct Keeping {
    pub run: Slices,
    pub taken: Vec<u32>,
}

impl Keeping {
    /// So many cells for exits, every cell with the pattern.
    pub fn of(taken: usize, cells: Cells) -> Self {
        Keeping { run: Slices::of(row_of(0), cells), taken: vec![PATTERN.into(); taken] }
    }

    pub fn lent(&mut self) -> HistoryRoom<'_> {
        HistoryRoom { run: self.run.lent().run, taken: &mut self.taken }
    }
}

/// The refusal of a call, which has to leave every slice as it was.
pub fn refused<T: std::fmt::Debug>(
    mut slices: Slices,
    call: impl FnOnce(PictureRoom) -> Result<T, Refusal>,
) -> Refusal {
    let before = slices.clone();
    let refusal = call(slices.lent()).expect_err("a refusal");
    assert_eq!(slices, before);
    refusal
}

/// The table of a picture in an edition, with the count of its regions.
pub fn built_in(edition: Edition, colours: &[Colour], shape: Shape) -> (usize, Slices) {
    let numbers: Vec<u8> = colours.iter().map(|colour| colour.number()).collect();
    let mut slices = Slices::of(shape, CELLS);
    let regions = piet::build(&numbers, shape, edition, slices.lent().table).expect("an accepted picture");
    (regions, slices)
}

/// The table of a picture, with the count of its regions.
pub fn built(colours: &[Colour], shape: Shape) -> (usize, Slices) {
    built_in(Edition::Rust, colours, shape)
}

/// The colour number of one pixel.
pub fn classified(pixel: [u8; 3], unknown: Unknown) -> Result<u8, Refusal> {
    let mut colours = [PATTERN; 1];
    piet::classify(&pixel, (1, 1), unknown, &mut colours).map(|()| colours[0])
}

/// Where a run stopped whose visits are counted, with the counts and the list up to n cells. Whatever the table is: the
/// run is that of `run`, the counts together are the steps and one more, the list has the nodes without a count and zeros
/// after them, the cells past n stay, and with the room made it is all the same.
pub fn counted(table: Table, edition: Edition, terms: Terms, cells: Cells) -> (Visited, Vec<u64>, Vec<u32>) {
    let n = table.regions;
    let mut room = Counting::of(n + 1, n + 2, cells);
    // the outputs' room is the shorter of their slices, and each is cleared to its end
    room.run.values.push(PATTERN.into());
    let mut slices = room.run.clone();
    let visited = piet::visits(table, edition, terms, room.lent()).expect("an accepted table");
    let Visited { ended, unvisited } = visited;

    assert_eq!(piet::run(table, edition, terms, slices.lent().run), Ok(ended));
    assert_eq!(room.run, slices);

    let (counts, kept_counts) = room.visits.split_at(n);
    let (list, kept_list) = room.unvisited.split_at(n);
    assert_eq!((kept_counts, kept_list), (&[PATTERN.into()][..], &[PATTERN.into(); 2][..]));
    assert_eq!(counts.iter().sum::<u64>(), ended.steps + 1);
    let never_entered = |&region: &usize| table.rows[ROW * region + 4] == 1 && counts[region] == 0;
    let nodes: Vec<u32> = (0..n).filter(never_entered).map(|region| region as u32).collect();
    assert_eq!(list, [&nodes[..], &vec![0; n - nodes.len()]].concat());
    assert_eq!(unvisited, nodes.len());

    let (stack, outputs) = (slices.stack[..ended.depth].to_vec(), slices.outputs(ended.outputs));
    let made = Visits { ended, stack, outputs, counts: counts.to_vec(), unvisited: nodes };
    assert_eq!(table.visits(edition, terms, cells), Ok(made));
    (visited, counts.to_vec(), list.to_vec())
}

/// Where a run stopped whose exits are kept, with all of them. Whatever the table is: the run is that of `run`, in slices
/// of any length the first exits are kept and the cells past them stay, with the room made it is all the same, and the
/// exits lead to the regions that visits count.
pub fn kept(table: Table, edition: Edition, terms: Terms, cells: Cells) -> (Ended, Vec<Exit>) {
    let mut run = Slices::of(row_of(0), cells);
    let ended = piet::run(table, edition, terms, run.lent().run).expect("an accepted table");
    let steps = ended.steps as usize;

    let in_cells = |length| {
        let mut room = Keeping::of(length, cells);
        assert_eq!(piet::history(table, edition, terms, room.lent()), Ok(ended));
        assert_eq!(room.run, run);
        room.taken
    };
    let all = in_cells(steps);
    for length in [0, steps / 2, steps.saturating_sub(1), steps + 1, steps + 3] {
        let past = length.saturating_sub(steps);
        assert_eq!(in_cells(length), [&all[..length - past], &vec![PATTERN.into(); past]].concat());
    }

    let taken: Vec<Exit> = all.iter().map(|&cell| Exit::of(cell).expect("an exit")).collect();
    let (stack, outputs) = (run.stack[..ended.depth].to_vec(), run.outputs(ended.outputs));
    let made = |most: usize| {
        let taken = taken[..most.min(steps)].to_vec();
        Ok(History { ended, stack: stack.clone(), outputs: outputs.clone(), taken })
    };
    for most in [0, steps / 2, steps, steps + 1] {
        assert_eq!(table.history(edition, terms, cells, most), made(most));
    }
    if let Ok(visits) = table.visits(edition, terms, cells) {
        assert_eq!(entered(&taken, table.regions), visits.counts);
    }
    (ended, taken)
}

/// How often each region is entered by a run that takes these exits.
fn entered(taken: &[Exit], regions: usize) -> Vec<u64> {
    let mut counts = vec![0; regions];
    counts[0] = 1;
    taken.iter().for_each(|exit| counts[usize::from(exit.target)] += 1);
    counts
}
