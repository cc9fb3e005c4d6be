//! Classifying, under the setting that refuses unknown pixels and under one that doesn't.
use crate::inputs::{pixels, scan, strange};
use crate::timing::{fastest, line};
use harness::library;
use harness::numbers::palette;
use image::Rgb;
use parser::convert::{
    ConvertToLightness, UnknownPixelSettings,
    UnknownPixelSettings::{TreatAsError, TreatAsWhite},
};
use piet_core::color::Lightness;

struct Given;
impl ConvertToLightness for Given {}

/// A pixel that is none of the twenty.
const STRANGE: [u8; 3] = [0xFE, 0xC1, 0x03];

const SETTINGS: [(u8, UnknownPixelSettings); 2] = [(1, TreatAsError), (2, TreatAsWhite)];

pub fn measure() {
    let (known, side) = pixels();
    for setting in SETTINGS {
        told("twenty colours", setting, both(&known, side, setting));
        told("one colour, the worst", setting, worst(side, setting));
    }
    let [_, white] = SETTINGS;
    told("unknown, by chance", white, both(&strange(), side, white));
    told("unknown, one", white, both(&vec![STRANGE; side * side], side, white));
    told("a scan", white, both(&scan(side), side, white));
}

/// That of the twenty colours on which ours is slowest beside the Rust.
fn worst(side: usize, setting: (u8, UnknownPixelSettings)) -> [f64; 2] {
    let each = palette().map(|colour| both(&vec![colour; side * side], side, setting));
    each.into_iter().min_by(|[a, b], [c, d]| (a / b).total_cmp(&(c / d))).expect("twenty colours")
}

/// Nanoseconds a pixel of the Rust and of ours.
fn both(
    pixels: &[[u8; 3]],
    side: usize,
    (setting, unknown): (u8, UnknownPixelSettings),
) -> [f64; 2] {
    let rust = fastest(|| -> Vec<Lightness> {
        pixels.iter().map(|&p| Given::rgb_to_lightness(&Rgb(p), unknown)).collect()
    });
    let (mut colours, mut answer) = (vec![0; side * side], [0; 2]);
    let bytes = pixels.as_flattened();
    let ours = fastest(|| {
        let number = library::classify(bytes, (side, side), setting, &mut colours, &mut answer);
        assert_eq!(number, 0);
    });
    [rust, ours].map(|seconds| seconds * 1e9 / pixels.len() as f64)
}

fn told(name: &str, (setting, _): (u8, UnknownPixelSettings), nanoseconds: [f64; 2]) {
    let [rust, ours] = nanoseconds;
    line(&format!("classify, {name}, setting {setting}"), "ns/pixel", nanoseconds, rust / ours);
}
