//! Which exits a run takes, in their order.
use crate::error::{allocated, reserved};
use crate::numbers::proved;
use crate::owned::OwnedRun;
use crate::{history, Cells, Edition, Ended, Error, Exit, HistoryRoom, Output, Table, Terms};

/// What a run over a table gave, with its exits.
#[derive(Clone, Debug, PartialEq, Eq, Hash)]
pub struct History {
    /// Where the run stopped.
    pub ended: Ended,
    /// The stack; the top is last.
    pub stack: Vec<i64>,
    /// The outputs in order.
    pub outputs: Vec<Output>,
    /// The exits of its steps in order; [`Ended::steps`] tells whether there were more than were kept.
    pub taken: Vec<Exit>,
}

impl Table<'_> {
    /// Runs the table in an edition, in room that is allocated for it, and keeps the exits that it takes, of its first
    /// steps where there are more than `most`. Cells are allocated for as many, and for no more than the limit.
    ///
    /// ```
    /// use piet::{build, Cells, Dp, Edition, Instruction, Shape, Table, TableRoom, Terms};
    ///
    /// // Light red and red. A run goes to and fro between them.
    /// let (mut map, mut rows, mut exits, mut work) = ([0; 2], [0; 10], [0; 16], [0; 2]);
    /// let room = TableRoom { map: &mut map, rows: &mut rows, exits: &mut exits, work: &mut work };
    /// let regions = build(&[12, 6], Shape { height: 1, width: 2, codel: 1 }, Edition::Rust, room)?;
    ///
    /// let table = Table { regions, rows: &rows, exits: &exits };
    /// let cells = Cells { stack: 256, outputs: 256 };
    /// let terms = Terms { limit: 4, abstract_mode: false, input: b"" };
    /// let history = table.history(Edition::Rust, terms, cells, 2)?;
    /// let [there, back] = history.taken[..] else { panic!("two of the four steps are kept") };
    /// assert_eq!((there.target, there.pointers.dp, there.instruction), (1, Dp::Right, Instruction::Push));
    /// assert_eq!((back.target, back.pointers.dp, back.instruction), (0, Dp::Left, Instruction::Pop));
    /// # Ok::<(), piet::Error>(())
    /// ```
    ///
    /// # Errors
    ///
    /// Memory, which is asked for first, and what [`history`] refuses.
    pub fn history(
        self,
        edition: Edition,
        terms: Terms,
        cells: Cells,
        most: usize,
    ) -> Result<History, Error> {
        let mut taken = allocated(most.min(terms.limit as usize))?;
        let mut run = OwnedRun::of(cells)?;
        let ended = history(self, edition, terms, HistoryRoom { run: run.lent(), taken: &mut taken })?;
        let taken = exits_of(&taken, ended.steps)?;
        let (stack, outputs) = run.left(ended)?;
        Ok(History { ended, stack, outputs, taken })
    }
}

/// The exits of so many steps, as far as there are cells.
fn exits_of(cells: &[u32], steps: u64) -> Result<Vec<Exit>, Error> {
    let count = cells.len().min(steps as usize);
    let mut exits = reserved(count)?;
    exits.extend(cells[..count].iter().map(|&cell| proved(Exit::of(cell))));
    Ok(exits)
}
