//! The room of a run, owned.
use crate::error::{allocated, reserved};
use crate::numbers::proved;
use crate::{Cells, Ended, Error, Output, RunRoom};

pub(crate) struct OwnedRun {
    stack: Vec<i64>,
    kinds: Vec<u8>,
    values: Vec<i64>,
}

impl OwnedRun {
    pub(crate) fn of(cells: Cells) -> Result<Self, Error> {
        Ok(OwnedRun {
            stack: allocated(cells.stack)?,
            kinds: allocated(cells.outputs)?,
            values: allocated(cells.outputs)?,
        })
    }

    pub(crate) fn lent(&mut self) -> RunRoom<'_> {
        let OwnedRun { stack, kinds, values } = self;
        RunRoom { stack, kinds, values }
    }

    /// The stack and the outputs of the run that ended in this room.
    pub(crate) fn left(self, ended: Ended) -> Result<(Vec<i64>, Vec<Output>), Error> {
        let OwnedRun { mut stack, kinds, values } = self;
        stack.truncate(ended.depth);
        let mut outputs = reserved(ended.outputs)?;
        let cells = kinds.iter().zip(&values).take(ended.outputs);
        outputs.extend(cells.map(|(&kind, &value)| proved(Output::of(kind, value))));
        Ok((stack, outputs))
    }
}
