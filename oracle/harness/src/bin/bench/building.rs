//! Building.
use crate::inputs::{extremes, textures};
use crate::timing::{fastest, line};
use harness::editions::RUST;
use harness::library::{self, Lent};
use harness::picture::Picture;
use parser::cfg::CFGBuilder;
use piet_core::program::PietSource;
use piet_core::settings::CodelSettings;

pub fn measure() {
    for (name, side, picture) in textures() {
        beside_the_rust(name, side, &picture);
    }
    for (name, picture) in extremes() {
        alone(name, &picture);
    }
}

fn beside_the_rust(name: &str, side: usize, picture: &Picture) {
    let rust = rust(picture);
    let mut lent = lent(side * side);
    let ours = fastest(|| build(picture, RUST, &mut lent));
    let costs = [rust, ours].map(|seconds| 1e9 * seconds / (side * side) as f64);
    line(&format!("build, {name}, {side} x {side}"), "ns/codel", costs, rust / ours);
}

fn alone(name: &str, picture: &Picture) {
    let mut lent = lent(picture.colours.len());
    let ours = fastest(|| build(picture, RUST, &mut lent));
    println!("{:58}{:>14.3}", format!("build, {name}, 256 x 256, ms"), 1e3 * ours);
}

/// Seconds of the Rust.
pub fn rust(picture: &Picture) -> f64 {
    let pixels = picture.lightnesses();
    let source = PietSource::new(&pixels, picture.height, picture.width);
    fastest(|| CFGBuilder::new(&source, CodelSettings::Width(1), false).build())
}

pub fn lent(codels: usize) -> Lent {
    let cells = |count: usize| vec![0; count * codels];
    Lent { map: cells(1), rows: cells(5), exits: cells(8), work: cells(1) }
}

pub fn build(picture: &Picture, edition: u32, lent: &mut Lent) {
    let (mut answer, sides) = ([0; 2], (picture.height as usize, picture.width as usize, 1));
    assert_eq!(library::build(&picture.colours, sides, edition, lent, &mut answer), 0);
}
