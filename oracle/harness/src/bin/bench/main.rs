//! bench: the archive and the Rust on the same inputs, in one run.
#[cfg(feature = "build")]
mod building;
#[cfg(feature = "classify")]
mod classifying;
#[cfg(feature = "p6")]
mod files;
#[allow(dead_code, reason = "a part alone uses some of it")]
mod inputs;
#[cfg(feature = "history")]
mod recording;
#[cfg(feature = "roll")]
mod rolling;
#[cfg(feature = "run")]
mod running;
#[cfg(feature = "slide")]
mod sliding;
mod timing;
#[cfg(feature = "visits")]
mod visiting;

/// The parts that this program was built for, and what ours is measured beside, where a part has no heading of its own; the
/// arguments name those that are measured.
const PARTS: &[(&str, &str, fn())] = &[
    #[cfg(feature = "classify")]
    ("classify", "Rust", classifying::measure),
    #[cfg(feature = "build")]
    ("build", "Rust", building::measure),
    #[cfg(feature = "run")]
    ("run", "Rust", running::measure),
    #[cfg(feature = "roll")]
    ("roll", "Rust", rolling::measure),
    #[cfg(feature = "p6")]
    ("p6", "copy", files::measure),
    #[cfg(feature = "slide")]
    ("slide", "", sliding::measure),
    #[cfg(feature = "visits")]
    ("visits", "", visiting::measure),
    #[cfg(feature = "history")]
    ("history", "", recording::measure),
];

fn main() {
    let asked: Vec<String> = std::env::args().skip(1).collect();
    let mut above = "";
    for (_, beside, measure) in PARTS.iter().filter(|(name, ..)| asked.iter().any(|a| a == name)) {
        if !beside.is_empty() && *beside != above {
            timing::heading(beside);
        }
        above = beside;
        measure();
    }
}
