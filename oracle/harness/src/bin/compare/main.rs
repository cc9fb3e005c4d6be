//! compare: the archive against the Rust, and against the model of the second edition, at scale. Exits with 1 at the first difference.
#[cfg(any(feature = "visits", feature = "history"))]
#[allow(dead_code, reason = "a part alone uses some of it")]
mod altered;
#[cfg(feature = "build")]
mod building;
#[allow(dead_code, reason = "a part alone uses some of it")]
mod cases;
#[cfg(feature = "classify")]
mod classify;
#[cfg(feature = "forever")]
mod forever;
#[cfg(feature = "label")]
mod label;
#[cfg(feature = "page")]
mod modelled;
#[cfg(feature = "page")]
mod page;
#[cfg(feature = "picture")]
mod picturing;
#[cfg(any(feature = "page", feature = "visits", feature = "history"))]
mod questions;
#[cfg(feature = "history")]
mod recording;
#[cfg(feature = "roll")]
mod rolling;
#[cfg(feature = "run")]
mod running;
#[cfg(feature = "slide")]
mod slide;
#[cfg(any(feature = "forever", feature = "run"))]
mod tables;
#[cfg(feature = "visits")]
mod visiting;

use cases::Checked;
use std::process::ExitCode;

/// The parts that this program was built for; the arguments name those that are asked.
const PARTS: &[(&str, fn() -> Checked)] = &[
    #[cfg(feature = "classify")]
    ("classify", classify::compare),
    #[cfg(feature = "build")]
    ("build", building::compare),
    #[cfg(feature = "label")]
    ("label", label::compare),
    #[cfg(feature = "forever")]
    ("forever", forever::compare),
    #[cfg(feature = "run")]
    ("run", running::compare),
    #[cfg(feature = "visits")]
    ("visits", visiting::compare),
    #[cfg(feature = "history")]
    ("history", recording::compare),
    #[cfg(feature = "roll")]
    ("roll", rolling::compare),
    #[cfg(feature = "picture")]
    ("picture", picturing::compare),
    #[cfg(feature = "page")]
    ("page", page::compare),
    #[cfg(feature = "slide")]
    ("slide", slide::compare),
];

fn main() -> ExitCode {
    let asked: Vec<String> = std::env::args().skip(1).collect();
    for (name, compare) in PARTS.iter().filter(|(name, _)| asked.iter().any(|a| a == name)) {
        match compare() {
            Ok(counts) => println!("{name}: no difference in {counts}"),
            Err(text) => {
                println!("{text}");
                return ExitCode::FAILURE;
            }
        }
    }
    ExitCode::SUCCESS
}
