//! The whole table of a picture.
use super::grid::{Codel, Grid, Landing, Pointers, Way};
use super::op;

/// The exit of an attempt whose slide is lost, one above the largest of the others.
pub const LOST: u32 = 9_437_185;

#[derive(Clone, Debug, PartialEq, Eq)]
pub struct Table {
    /// the region of each codel
    pub map: Vec<u32>,
    /// colour, size, row and column of the first pixel, node mark
    pub rows: Vec<[u32; 5]>,
    /// by the number of the pointers
    pub exits: Vec<[u32; 8]>,
}

/// Regions while their table is made.
struct Regions<'a> {
    grid: &'a Grid,
    /// whether a long slide counts as lost
    short: bool,
    map: Vec<u32>,
    codels: Vec<Vec<Codel>>,
}

/// None where the picture begins with white.
pub fn build(grid: &Grid) -> Option<Table> {
    table(Regions::of(grid, false))
}

/// The same with long slides lost, as in the first edition. That has this table, but with 0 for the exits of lost slides.
pub fn build_short(grid: &Grid) -> Option<Table> {
    table(Regions::of(grid, true))
}

fn table(regions: Regions) -> Option<Table> {
    let (grid, found) = (regions.grid, regions.found());
    let white = |region: usize| grid.is_white(regions.codels[region][0]);
    if white(0) {
        return None;
    }
    let node = |region: usize| found[region] && !white(region);
    let row = |region: usize| {
        let codels = &regions.codels[region];
        let colour = grid.colour(codels[0]).expect("inside the picture");
        let [row, column] = grid.pixel(codels[0]);
        [colour as u32, codels.len() as u32, row, column, node(region) as u32]
    };
    let exits = |region: usize| if node(region) { regions.exits(region) } else { [0; 8] };
    let all = 0..regions.codels.len();
    let (rows, exits) = (all.clone().map(row).collect(), all.map(exits).collect());
    Some(Table { map: regions.map, rows, exits })
}

impl<'a> Regions<'a> {
    /// Codels that lie side by side and are alike are joined, so that each leads to the first of its region; the first
    /// ones are numbered as they come.
    fn of(grid: &'a Grid, short: bool) -> Self {
        let mut leads: Vec<usize> = grid.codels().map(|c| grid.index(c)).collect();
        for at in grid.codels() {
            for beside in grid.alike(at) {
                let ends = [at, beside].map(|c| end_of(&leads, grid.index(c)));
                leads[ends[0].max(ends[1])] = ends[0].min(ends[1]);
            }
        }
        let mut regions = Regions { grid, short, map: vec![], codels: vec![] };
        for (index, codel) in grid.codels().enumerate() {
            let first = end_of(&leads, index);
            let number = if first == index { regions.add() } else { regions.map[first] };
            regions.map.push(number);
            regions.codels[number as usize].push(codel);
        }
        regions
    }

    fn add(&mut self) -> u32 {
        self.codels.push(vec![]);
        self.codels.len() as u32 - 1
    }

    fn region(&self, at: Codel) -> usize {
        self.map[self.grid.index(at)] as usize
    }

    fn way(&self, region: usize, state: u32) -> Way {
        match self.grid.attempt(&self.codels[region], Pointers::numbered(state)) {
            Way::Across { white, landing: Some(l) } if self.short && l.is_long() => {
                Way::Across { white, landing: None }
            }
            way => way,
        }
    }

    /// Which regions are found from region 0, by the eight attempts of each, of white ones too.
    fn found(&self) -> Vec<bool> {
        let mut found = vec![false; self.codels.len()];
        let mut open = vec![0];
        while let Some(region) = open.pop() {
            if !found[region] {
                found[region] = true;
                open.extend((0..8).flat_map(|state| self.met(region, state)));
            }
        }
        found
    }

    /// The region ahead, and the one behind the white.
    fn met(&self, region: usize, state: u32) -> Vec<usize> {
        match self.way(region, state) {
            Way::Shut => vec![],
            Way::Beside(codel) => vec![self.region(codel)],
            Way::Across { white, landing } => {
                let codels = [Some(white), landing.map(|l| l.at)];
                codels.into_iter().flatten().map(|c| self.region(c)).collect()
            }
        }
    }

    fn exits(&self, region: usize) -> [u32; 8] {
        [0, 1, 2, 3, 4, 5, 6, 7].map(|state| match self.way(region, state) {
            Way::Shut => 0,
            Way::Beside(to) => {
                let command = self.grid.command(self.codels[region][0], to);
                exit_number(self.region(to), Pointers::numbered(state), command)
            }
            Way::Across { landing: None, .. } => LOST,
            Way::Across { landing: Some(Landing { at, by, .. }), .. } => {
                exit_number(self.region(at), by, op::NONE)
            }
        })
    }
}

/// The exit of a move to a region, with the pointers before its command.
pub fn exit_number(to: usize, by: Pointers, command: u8) -> u32 {
    1 + to as u32 + 65_536 * by.number() + 524_288 * command as u32
}

fn end_of(leads: &[usize], mut at: usize) -> usize {
    while leads[at] != at {
        at = leads[at];
    }
    at
}
