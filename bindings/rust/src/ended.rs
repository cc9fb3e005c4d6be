//! Where a run stopped, and why.
use crate::numbers::{from_outside, numbered, proved, NoSuch};
use crate::{Cc, Dp, Pointers, Skipped};

numbered! {
    /// Why a run stopped. At the last three the step is not taken, and everything stands as before it.
    Status {
        /// No attempt is open, or, in [`crate::Edition::Page`], none before a lost slide.
        Completed = 1,
        /// As many steps as the limit were taken.
        MaxSteps = 2,
        /// Abstract mode, after an input instruction.
        NeedsInput = 3,
        /// The depth after the step would pass the stack's room.
        StackFull = 4,
        /// The step would write, and no output cell is left.
        OutputFull = 5,
        /// The line that the step would read is not UTF-8.
        BadInput = 6,
    }
}

from_outside!(Status, "status");

/// Where a run stopped.
#[derive(Clone, Copy, Debug, PartialEq, Eq, Hash)]
pub struct Ended {
    /// Why it stopped.
    pub status: Status,
    /// The steps taken.
    pub steps: u64,
    /// The region that it stands in.
    pub region: usize,
    /// The pointers.
    pub pointers: Pointers,
    /// The depth of the stack.
    pub depth: usize,
    /// The count of outputs.
    pub outputs: usize,
    /// The bytes of input that were read.
    pub used: usize,
    /// How many lines IntIn skipped, by the reason.
    pub skipped: Skipped,
}

/// The cells of a run's answer.
pub(crate) const RUN_ANSWER: usize = 12;

impl Ended {
    /// The end that the cells of an answer say.
    pub(crate) fn of(answer: [u64; RUN_ANSWER]) -> Self {
        let [status, steps, region, dp, cc, depth, outputs, used, skipped @ ..] = answer;
        Ended {
            status: proved(Status::of(status)),
            steps,
            region: region as usize,
            pointers: Pointers { dp: proved(Dp::of(dp)), cc: proved(Cc::of(cc)) },
            depth: depth as usize,
            outputs: outputs as usize,
            used: used as usize,
            skipped: Skipped::of(skipped),
        }
    }
}

/// Where the run of a picture stopped.
#[derive(Clone, Copy, Debug, PartialEq, Eq, Hash)]
pub struct Pictured {
    /// The run's end.
    pub ended: Ended,
    /// The count of the picture's regions.
    pub regions: usize,
}

/// The cells of the answer to a picture: those of a run's answer, then the count of regions.
pub(crate) const RUN_PICTURE_ANSWER: usize = RUN_ANSWER + 1;

impl Pictured {
    /// The end that the cells of an answer say.
    pub(crate) fn of([run @ .., regions]: [u64; RUN_PICTURE_ANSWER]) -> Self {
        Pictured { ended: Ended::of(run), regions: regions as usize }
    }
}
