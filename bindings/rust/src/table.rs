//! A table, and its cells in words.
use crate::{label, Colour, Error, Instruction, Pointers};

/// Cells of a region's row: colour, size, row and column of the first pixel, node mark.
pub const ROW: usize = 5;
/// Exits of a region, by pointer state.
pub const EXITS: usize = 8;
/// Bytes that a label needs.
pub const LABEL: usize = 22;

/// The states of an exit's cell are this far apart, so that any region's number fits below.
const STATE: u32 = 65_536;
/// The instructions of an exit's cell are this far apart.
const INSTRUCTION: u32 = 8 * STATE;
/// The cell of a lost slide, one above the largest exit.
const LOST: u32 = 18 * INSTRUCTION + 1;

/// A table of n regions; the slices may be longer than it needs.
#[derive(Clone, Copy, Debug, PartialEq, Eq, Hash)]
pub struct Table<'a> {
    /// The count of regions, n.
    pub regions: usize,
    /// Five cells a region.
    pub rows: &'a [u32],
    /// Eight cells a region.
    pub exits: &'a [u32],
}

impl Table<'_> {
    /// A region's row; none where the table has no such region, or its cells are no row.
    pub fn region(self, number: usize) -> Option<Region> {
        Region::of(*self.of_region(self.rows, number)?)
    }

    /// What becomes of the attempt to leave a region in a pointer state; none where the table has no such region, or
    /// the cell stands for nothing.
    pub fn attempt(self, region: usize, pointers: Pointers) -> Option<Attempt> {
        let cells: &[u32; EXITS] = self.of_region(self.exits, region)?;
        Attempt::of(cells[usize::from(pointers.state())])
    }

    /// Where a region is left to in a pointer state; none where that attempt is not open or is a lost slide, which
    /// [`Table::attempt`] tells apart, where the table has no such region, or where the cell is no exit.
    pub fn exit(self, region: usize, pointers: Pointers) -> Option<Exit> {
        match self.attempt(region, pointers)? {
            Attempt::Open(exit) => Some(exit),
            Attempt::Shut | Attempt::Lost => None,
        }
    }

    fn of_region<const N: usize>(self, cells: &[u32], region: usize) -> Option<&[u32; N]> {
        if region < self.regions {
            cells.chunks_exact(N).nth(region)?.try_into().ok()
        } else {
            None
        }
    }
}

/// A region's row.
#[derive(Clone, Copy, Debug, PartialEq, Eq, Hash)]
pub struct Region {
    /// The colour of its codels.
    pub colour: Colour,
    /// The count of its codels.
    pub size: usize,
    /// The row of its first pixel.
    pub row: usize,
    /// The column of its first pixel.
    pub column: usize,
    /// Whether it is found from region 0 and is not white.
    pub node: bool,
}

impl Region {
    /// What a row's five cells say; none where the colour is above 19 or the node mark above 1.
    pub fn of([colour, size, row, column, mark]: [u32; ROW]) -> Option<Region> {
        let [size, row, column] = [size, row, column].map(|cell| cell as usize);
        let node = match mark {
            0 => false,
            1 => true,
            _ => return None,
        };
        Some(Region { colour: Colour::of(colour.into())?, size, row, column, node })
    }

    /// The region's label: `Entry` for first pixel (0,0), else as `RegRed_0_1`.
    ///
    /// # Errors
    ///
    /// What [`label`] refuses, and Memory.
    pub fn label(self) -> Result<String, Error> {
        let mut out = [0; LABEL];
        let length = label(self.colour, (self.row, self.column), &mut out)?;
        let mut text = String::new();
        text.try_reserve_exact(length).map_err(|_| Error::Memory)?;
        text.extend(out[..length].iter().map(|&byte| char::from(byte)));
        Ok(text)
    }
}

/// What becomes of an attempt to leave a region.
#[derive(Clone, Copy, Debug, PartialEq, Eq, Hash)]
pub enum Attempt {
    /// It is not open: the next of the eight is tried.
    Shut,
    /// It is open.
    Open(Exit),
    /// It is a slide over white that is lost, in a table of [`crate::Edition::Page`] alone: a run that comes to it is
    /// completed without a step. In [`crate::Edition::Rust`] it is shut, and a table in which it stands is refused.
    Lost,
}

impl Attempt {
    /// What a cell of a table's exits says; none above 9,437,185, which stands for nothing.
    pub fn of(cell: u32) -> Option<Attempt> {
        match cell {
            0 => Some(Attempt::Shut),
            LOST => Some(Attempt::Lost),
            _ => Exit::of(cell).map(Attempt::Open),
        }
    }

    /// The cell of this attempt: 0 where it is shut, 9,437,185 where it is a lost slide, else the exit's.
    pub fn cell(self) -> u32 {
        match self {
            Attempt::Shut => 0,
            Attempt::Open(exit) => exit.cell(),
            Attempt::Lost => LOST,
        }
    }
}

/// An exit of a region: where an open attempt leads, and what the move does.
#[derive(Clone, Copy, Debug, PartialEq, Eq, Hash)]
pub struct Exit {
    /// The region that is entered.
    pub target: u16,
    /// The pointers after the move, before its instruction.
    pub pointers: Pointers,
    /// What the move does.
    pub instruction: Instruction,
}

impl Exit {
    /// The exit of a cell of a table's exits: none for 0, an attempt that is not open, for 9,437,185, a lost slide, and
    /// for what is larger; [`Attempt::of`] tells them apart.
    pub fn of(cell: u32) -> Option<Exit> {
        let exit = cell.checked_sub(1)?;
        Some(Exit {
            target: (exit % STATE) as u16,
            pointers: Pointers::try_from((exit % INSTRUCTION / STATE) as u8).ok()?,
            instruction: Instruction::of((exit / INSTRUCTION).into())?,
        })
    }

    /// The cell of this exit: 1 + target + 65,536 x pointer state + 524,288 x instruction.
    pub fn cell(self) -> u32 {
        let Exit { target, pointers, instruction } = self;
        1 + u32::from(target)
            + STATE * u32::from(pointers.state())
            + INSTRUCTION * u32::from(instruction.number())
    }
}
