//! Regions, exits and labels.
use crate::machine::{entry, Move};
use crate::numbers::{colour, colour_number, instruction_number, state_number};
use parser::cfg::CFGBuilder;
use piet_core::cfg::{Node, CFG};
use piet_core::color::Lightness;
use piet_core::program::PietSource;
use piet_core::settings::CodelSettings;
use piet_core::state::Position;
use std::collections::HashMap;
use std::fmt::{Display, Formatter};

/// Colour numbers of the pixels, row by row.
#[derive(Clone, Debug)]
pub struct Picture {
    pub height: u32,
    pub width: u32,
    pub codel: u32,
    pub colours: Vec<u8>,
}

/// What building writes, with the labels and `determine_runs_forever` beside it.
#[derive(Default)]
pub struct Built {
    pub map: Vec<u32>,
    pub rows: Vec<[u32; 5]>,
    pub exits: Vec<[u32; 8]>,
    pub labels: Vec<String>,
    pub forever: bool,
    pub cfg: CFG,
}

impl Picture {
    pub fn lightnesses(&self) -> Vec<Lightness> {
        self.colours.iter().map(|&c| colour(c)).collect()
    }

    /// First pixels of the codels, row by row.
    fn codels(&self) -> impl Iterator<Item = Position> + '_ {
        let step = self.codel as usize;
        let columns = move || (0..self.width).step_by(step);
        (0..self.height).step_by(step).flat_map(move |r| columns().map(move |c| (r, c)))
    }
}

/// `PietSource::get`.
pub fn get(picture: &Picture, at: Position) -> Option<u8> {
    let pixels = picture.lightnesses();
    let source = PietSource::new(&pixels, picture.height, picture.width);
    source.get(at).map(|&l| colour_number(l))
}

/// The label of the region of this colour whose first pixel is this one: the last pixel of a
/// picture that is otherwise of another colour.
pub fn label(number: u8, at: Position) -> String {
    let (height, width) = (at.0 + 1, at.1 + 1);
    let mut pixels = vec![colour((number + 1) % 20); (height * width) as usize];
    *pixels.last_mut().expect("at least one pixel") = colour(number);
    let source = PietSource::new(&pixels, height, width);
    let builder = CFGBuilder::new(&source, CodelSettings::Width(1), false);
    builder.open_explore(at).get_label().clone()
}

/// The graph of `CFGBuilder::build` as the rules' table; the regions that are no nodes come from its
/// own `explore_region`.
pub fn build(picture: &Picture) -> Built {
    let pixels = picture.lightnesses();
    let source = PietSource::new(&pixels, picture.height, picture.width);
    let codel = CodelSettings::Width(picture.codel);
    let mut builder = CFGBuilder::new(&source, codel, false);
    builder.build();
    let mut built = Built {
        cfg: builder.get_cfg(),
        forever: builder.determine_runs_forever(),
        ..Built::default()
    };
    // Without a graph of its own `explore_region` explores anew each time.
    let explorer = CFGBuilder::new(&source, codel, false);
    let (mut numbers, mut owner) = (HashMap::new(), HashMap::new());
    for at in picture.codels() {
        if !owner.contains_key(&at) {
            let (region, number) = (explorer.open_explore(at), numbers.len());
            assert_eq!(region.get_region().iter().min(), Some(&at), "the first codel is met first");
            for &codel in region.get_region() {
                assert_eq!(owner.insert(codel, number as u32), None, "one region each");
            }
            built.add_region(&region, at);
            assert_eq!(numbers.insert(region, number), None, "one label each");
        }
        built.map.push(owner[&at]);
    }
    built.add_exits(&numbers);
    built
}

impl Built {
    /// `get_entry` panics where pixel (0,0) is white: refusal 9.
    pub fn refused_white(&self) -> bool {
        entry(&self.cfg).is_err()
    }

    /// The number of the region with this label.
    pub fn region(&self, label: &str) -> usize {
        self.labels.iter().position(|l| l == label).expect("a region's label")
    }

    /// Which regions are nodes.
    pub fn marks(&self) -> Vec<u32> {
        self.rows.iter().map(|row| row[4]).collect()
    }

    fn add_region(&mut self, region: &Node, first: Position) {
        let node = self.cfg.get_key_value(region);
        if let Some((kept, _)) = node {
            assert_eq!(kept.get_region(), region.get_region(), "equal labels, equal regions");
        }
        let (colour, size) = (colour_number(region.get_lightness()), region.get_region_size());
        let is_node = node.is_some() as u32;
        self.rows.push([colour as u32, size as u32, first.0, first.1, is_node]);
        self.labels.push(region.get_label().clone());
    }

    fn add_exits(&mut self, numbers: &HashMap<Node, usize>) {
        self.exits = vec![[0; 8]; self.rows.len()];
        for (node, adjacent) in &self.cfg {
            let exits = &mut self.exits[numbers[node]];
            for (target, transitions) in adjacent {
                assert!(self.cfg.contains_key(target), "a target is a node");
                for t in transitions {
                    let cell = &mut exits[state_number(t.entry_state) as usize];
                    assert_eq!(*cell, 0, "one transition for a state");
                    *cell = exit_number(numbers[target], (t.exit_state, t.instruction));
                }
            }
        }
    }
}

/// The exit by which a move leads to this region.
pub fn exit_number(target: usize, (pointers, instruction): Move) -> u32 {
    let (state, number) = (state_number(pointers) as u32, instruction_number(instruction) as u32);
    1 + target as u32 + 65_536 * state + 524_288 * number
}

impl Display for Built {
    fn fmt(&self, f: &mut Formatter) -> std::fmt::Result {
        writeln!(f, "n {}\nmap{}", self.rows.len(), listed(&self.map))?;
        for (i, row) in self.rows.iter().enumerate() {
            let (label, exits) = (&self.labels[i], listed(&self.exits[i]));
            writeln!(f, "region {i}{} {label} exits{exits}", listed(row))?;
        }
        writeln!(f, "forever {}", self.forever as u32)
    }
}

fn listed(numbers: &[u32]) -> String {
    numbers.iter().map(|n| format!(" {n}")).collect()
}
