//! How a call is timed, and a line of the table.
use std::hint::black_box;
use std::time::{Duration, Instant};

const ENOUGH: Duration = Duration::from_millis(500);

/// Seconds of the fastest call; calls go on until enough time has passed.
pub fn fastest<T>(mut f: impl FnMut() -> T) -> f64 {
    let (begun, mut best) = (Instant::now(), f64::INFINITY);
    while begun.elapsed() < ENOUGH {
        let start = Instant::now();
        black_box(f());
        best = best.min(start.elapsed().as_secs_f64());
    }
    best
}

/// Seconds of the fastest call of each, made by turns, so that all have the same of what else the machine does.
#[cfg(any(feature = "visits", feature = "history"))]
pub fn fastest_by_turns<const N: usize>(mut calls: [&mut dyn FnMut(); N]) -> [f64; N] {
    let (begun, mut best) = (Instant::now(), [f64::INFINITY; N]);
    while begun.elapsed() < 2 * N as u32 * ENOUGH {
        for (call, best) in calls.iter_mut().zip(&mut best) {
            let start = Instant::now();
            call();
            *best = best.min(start.elapsed().as_secs_f64());
        }
    }
    best
}

/// What stands above the lines: what ours is measured beside.
pub fn heading(beside: &str) {
    println!("{:44}{beside:>14}{:>14}{:>10}", "", "ours", "ratio");
}

/// A line: both in this unit, and how many times as fast ours is.
pub fn line(name: &str, unit: &str, [other, ours]: [f64; 2], ratio: f64) {
    println!("{:44}{other:>14.3}{ours:>14.3}{ratio:>10.2}", format!("{name}, {unit}"));
}

/// A line with a number of each and no ratio.
#[cfg(feature = "roll")]
pub fn both(name: &str, [other, ours]: [f64; 2]) {
    println!("{name:44}{other:>14.3}{ours:>14.3}");
}
