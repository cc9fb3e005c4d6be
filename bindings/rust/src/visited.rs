//! Which regions a run enters, and how often.
use crate::ended::RUN_ANSWER;
use crate::error::allocated;
use crate::owned::OwnedRun;
use crate::{visits, Cells, Edition, Ended, Error, Output, Table, Terms, VisitsRoom, MOST_CODELS};

/// Where a run stopped whose visits were counted.
#[derive(Clone, Copy, Debug, PartialEq, Eq, Hash)]
pub struct Visited {
    /// The run's end.
    pub ended: Ended,
    /// The count of nodes that were never entered.
    pub unvisited: usize,
}

/// The cells of its answer: those of a run's answer, then the count of nodes that were never entered.
pub(crate) const VISITS_ANSWER: usize = RUN_ANSWER + 1;

impl Visited {
    /// The end that the cells of an answer say.
    pub(crate) fn of([run @ .., unvisited]: [u64; VISITS_ANSWER]) -> Self {
        Visited { ended: Ended::of(run), unvisited: unvisited as usize }
    }
}

/// What a run over a table gave, with its visits counted.
#[derive(Clone, Debug, PartialEq, Eq, Hash)]
pub struct Visits {
    /// Where the run stopped.
    pub ended: Ended,
    /// The stack; the top is last.
    pub stack: Vec<i64>,
    /// The outputs in order.
    pub outputs: Vec<Output>,
    /// How often each region was entered, by its number. Together they are the steps and one more.
    pub counts: Vec<u64>,
    /// The nodes that were never entered, by their region numbers in rising order.
    pub unvisited: Vec<u32>,
}

impl Table<'_> {
    /// Runs the table in an edition, in room that is allocated for it, and counts how often each region is entered.
    ///
    /// ```
    /// use piet::{build, Cells, Edition, Shape, Table, TableRoom, Terms};
    ///
    /// // Light red and red. A run goes to and fro between them.
    /// let (mut map, mut rows, mut exits, mut work) = ([0; 2], [0; 10], [0; 16], [0; 2]);
    /// let room = TableRoom { map: &mut map, rows: &mut rows, exits: &mut exits, work: &mut work };
    /// let regions = build(&[12, 6], Shape { height: 1, width: 2, codel: 1 }, Edition::Rust, room)?;
    ///
    /// let table = Table { regions, rows: &rows, exits: &exits };
    /// let cells = Cells { stack: 256, outputs: 256 };
    /// let terms = Terms { limit: 4, abstract_mode: false, input: b"" };
    /// assert_eq!(table.visits(Edition::Rust, terms, cells)?.counts, [3, 2]);
    /// let at_once = table.visits(Edition::Rust, Terms { limit: 0, ..terms }, cells)?;
    /// assert_eq!((at_once.counts, at_once.unvisited), (vec![1, 0], vec![1]));
    /// # Ok::<(), piet::Error>(())
    /// ```
    ///
    /// # Errors
    ///
    /// Memory, which is asked for first, and what [`visits`] refuses, but for Room.
    pub fn visits(self, edition: Edition, terms: Terms, cells: Cells) -> Result<Visits, Error> {
        // a table of more regions is refused, whatever is lent
        let regions = self.regions.min(MOST_CODELS);
        let (mut counts, mut unvisited) = (allocated(regions)?, allocated(regions)?);
        let mut run = OwnedRun::of(cells)?;
        let room = VisitsRoom { run: run.lent(), visits: &mut counts, unvisited: &mut unvisited };
        let visited = visits(self, edition, terms, room)?;
        unvisited.truncate(visited.unvisited);
        let (stack, outputs) = run.left(visited.ended)?;
        Ok(Visits { ended: visited.ended, stack, outputs, counts, unvisited })
    }
}
