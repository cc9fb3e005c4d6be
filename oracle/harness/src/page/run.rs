//! Runs, over a table or over the picture itself.
use super::commands::{Machine, Parting};
use super::grid::{Codel, Grid, Pointers, Way};
use super::op;
use super::table::{exit_number, LOST};
use std::iter::zip;

pub const COMPLETED: u32 = 1;
pub const MAX_STEPS: u32 = 2;
pub const NEEDS_INPUT: u32 = 3;

pub struct Terms<'a> {
    pub limit: u64,
    pub is_abstract: bool,
    pub input: &'a [u8],
    /// cells lent
    pub stack: usize,
    pub outputs: usize,
}

/// How a run ended.
#[derive(Clone, Debug, PartialEq, Eq)]
pub struct End {
    pub status: u32,
    pub steps: u64,
    pub region: usize,
    /// the regions that were entered, in their order: where the run starts, and where each step taken leads
    pub entered: Vec<usize>,
    /// the exit of each step taken, in their order
    pub taken: Vec<u32>,
    pub pointers: Pointers,
    /// bottom first
    pub stack: Vec<i64>,
    /// kind and value
    pub outputs: Vec<(u8, i64)>,
    /// bytes of input
    pub used: usize,
    /// lines that IntIn skipped: ended, blank, not a number, out of range
    pub skipped: [u64; 4],
    /// it ended at a lost slide
    pub lost: bool,
    /// the first thing that the first edition does otherwise, and how many steps were taken before it; a long slide only
    /// where the run is over codels, as exits do not tell it from others
    pub parting: Option<(u64, Parting)>,
}

impl End {
    /// The twelve numbers of a run's answer.
    pub fn numbers(&self) -> [u64; 12] {
        let [status, dp, cc] = [self.status, self.pointers.dp, self.pointers.cc].map(u64::from);
        let counts = [self.region, self.stack.len(), self.outputs.len(), self.used];
        let [region, depth, outputs, used] = counts.map(|n| n as u64);
        let [ended, blank, not_number, out_of_range] = self.skipped;
        [
            status, self.steps, region, dp, cc, depth, outputs, used, ended, blank, not_number,
            out_of_range,
        ]
    }
}

/// Where a run goes from a place: nowhere, into a slide that is lost, or to another place.
enum Next<P> {
    Nowhere,
    Lost,
    Step { to: P, by: Pointers, command: u8, size: u32, long: bool },
}

/// Over the table of n regions in these cells; None where it is none (refusal 10).
pub fn run_table(n: usize, rows: &[u32], exits: &[u32], terms: &Terms) -> Option<End> {
    if !is_table(n, rows, exits) {
        return None;
    }
    let next = |region: &usize, by: Pointers| {
        let mut exits = by.attempts().map(|p| exits[8 * region + p.number() as usize]);
        match exits.find(|&exit| exit != 0) {
            None => Next::Nowhere,
            Some(LOST) => Next::Lost,
            Some(exit) => {
                let (rest, to) = ((exit - 1) / 65_536, (exit - 1) as usize % 65_536);
                let (by, command) = (Pointers::numbered(rest % 8), (rest / 8) as u8);
                Next::Step { to, by, command, size: rows[5 * region + 1], long: false }
            }
        }
    };
    Some(run(0, terms, next, <[usize]>::to_vec))
}

fn is_table(n: usize, rows: &[u32], exits: &[u32]) -> bool {
    let exit = |&exit: &u32| match exit {
        0 | LOST => true,
        _ => exit < LOST && (exit as usize - 1) % 65_536 < n,
    };
    (1..=65_536).contains(&n)
        && rows.len() >= 5 * n
        && exits.len() >= 8 * n
        && (0..n).all(|region| rows[5 * region + 4] <= 1)
        && exits[..8 * n].iter().all(exit)
}

/// Over the codels of a picture, without a table; None where it begins with white (refusal 9).
pub fn run_grid(grid: &Grid, terms: &Terms) -> Option<End> {
    let first = grid.codels().next().filter(|&c| !grid.is_white(c))?;
    let next = |at: &Codel, by: Pointers| {
        let block = grid.block(*at);
        let size = block.len() as u32;
        for by in by.attempts() {
            match grid.attempt(&block, by) {
                Way::Shut => (),
                Way::Across { landing: None, .. } => return Next::Lost,
                Way::Across { landing: Some(l), .. } => {
                    let (to, by, long) = (l.at, l.by, l.is_long());
                    return Next::Step { to, by, command: op::NONE, size, long };
                }
                Way::Beside(to) => {
                    let command = grid.command(*at, to);
                    return Next::Step { to, by, command, size, long: false };
                }
            }
        }
        Next::Nowhere
    };
    Some(run(first, terms, next, |entered| grid.numbers(entered)))
}

fn run<P: Copy>(
    mut place: P,
    terms: &Terms,
    next: impl Fn(&P, Pointers) -> Next<P>,
    regions: impl Fn(&[P]) -> Vec<usize>,
) -> End {
    let (mut machine, mut steps) = (Machine::default(), 0);
    let (mut entered, mut moves) = (vec![place], vec![]);
    let (mut lost, mut parting) = (false, None);
    let status = loop {
        if steps == terms.limit {
            break MAX_STEPS;
        }
        if machine.awaits {
            break NEEDS_INPUT;
        }
        let (to, by, long, after) = match next(&place, machine.pointers) {
            Next::Nowhere => break COMPLETED,
            Next::Lost => {
                lost = true;
                parting = parting.or(Some((steps, Parting::LostSlide)));
                break COMPLETED;
            }
            Next::Step { to, by, command, size, long } => {
                let after = machine.stepped(by, (command, size), terms);
                (to, (by, command), long, after)
            }
        };
        match after {
            Err(status) => break status,
            Ok(after) => (place, machine) = (to, after),
        }
        entered.push(place);
        moves.push(by);
        let what = if long { Some(Parting::LongSlide) } else { machine.parting };
        parting = parting.or(what.map(|what| (steps, what)));
        steps += 1;
    };
    let Machine { pointers, stack, outputs, used, skipped, .. } = machine;
    let entered = regions(&entered);
    let region = entered[steps as usize];
    let exits = zip(&entered[1..], moves).map(|(&to, (by, command))| exit_number(to, by, command));
    let taken = exits.collect();
    End {
        status,
        steps,
        region,
        entered,
        taken,
        pointers,
        stack,
        outputs,
        used,
        skipped,
        lost,
        parting,
    }
}
