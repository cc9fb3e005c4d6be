//! From pixels to a run's end in one call, with the room allocated.
use crate::error::allocated;
use crate::numbers::proved;
use crate::owned::OwnedRun;
use crate::{
    run_picture, Edition, Ended, Error, Output, Picture, PictureRoom, Region, Shape, Skipped, Table,
    TableRoom, Terms, EXITS, ROW,
};
use std::fmt;

/// How many stack cells and outputs a run may use.
#[derive(Clone, Copy, Debug, PartialEq, Eq, Hash)]
pub struct Cells {
    /// The stack's room.
    pub stack: usize,
    /// The outputs' room.
    pub outputs: usize,
}

/// What a run gave. It is displayed as the run program prints it; where IntIn skipped lines, a line more says why.
#[derive(Clone, Debug, PartialEq, Eq, Hash)]
pub struct Told {
    /// Where the run stopped.
    pub ended: Ended,
    /// The count of the picture's regions.
    pub regions: usize,
    /// The region that the run stands in; [`Region::label`] names it.
    pub region: Region,
    /// The stack; the top is last.
    pub stack: Vec<i64>,
    /// The outputs in order.
    pub outputs: Vec<Output>,
}

/// The room of a picture's run, owned.
struct Owned {
    colours: Vec<u8>,
    map: Vec<u32>,
    rows: Vec<u32>,
    exits: Vec<u32>,
    work: Vec<u32>,
    run: OwnedRun,
}

impl Owned {
    fn of(shape: Shape, cells: Cells) -> Result<Self, Error> {
        let codels = shape.codels();
        Ok(Owned {
            colours: allocated(shape.pixels())?,
            map: allocated(codels)?,
            rows: allocated(ROW * codels)?,
            exits: allocated(EXITS * codels)?,
            work: allocated(codels)?,
            run: OwnedRun::of(cells)?,
        })
    }

    fn lent(&mut self) -> PictureRoom<'_> {
        let Owned { colours, map, rows, exits, work, run } = self;
        PictureRoom { colours, table: TableRoom { map, rows, exits, work }, run: run.lent() }
    }
}

/// Runs a picture in an edition, in room that is allocated for it.
///
/// # Errors
///
/// Memory, which is asked for first, and what [`run_picture`] refuses.
pub fn run_pixels(picture: Picture, edition: Edition, terms: Terms, cells: Cells) -> Result<Told, Error> {
    let mut owned = Owned::of(picture.shape, cells)?;
    let pictured = run_picture(picture, edition, terms, owned.lent())?;
    let Owned { rows, exits, run, .. } = owned;
    let (ended, regions) = (pictured.ended, pictured.regions);
    let region = proved(Table { regions, rows: &rows, exits: &exits }.region(ended.region));
    let (stack, outputs) = run.left(ended)?;
    Ok(Told { ended, regions, region, stack, outputs })
}

impl fmt::Display for Told {
    fn fmt(&self, f: &mut fmt::Formatter<'_>) -> fmt::Result {
        let Ended { status, steps, pointers, skipped, .. } = self.ended;
        writeln!(f, "status {}\nsteps {steps}", status.number())?;
        let label = self.region.label().map_err(|_| fmt::Error)?;
        writeln!(f, "at {label} {} {}", pointers.dp.number(), pointers.cc.number())?;
        write!(f, "stack {}", self.stack.len())?;
        self.stack.iter().rev().try_for_each(|value| write!(f, " {value}"))?;
        write!(f, "\nout {}", self.outputs.len())?;
        self.outputs.iter().try_for_each(|output| write!(f, " {output}"))?;
        writeln!(f)?;
        if skipped != Skipped::NONE {
            writeln!(f, "skipped {skipped}")?;
        }
        Ok(())
    }
}
