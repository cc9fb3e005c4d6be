//! Asks the given Rust and puts its answers into the numbers of the rules (docs/RULES.md). Nothing here
//! decides what the Rust decides; `skips` decides what it does not tell, `visits` counts what it did, `trace` puts that into words,
//! and `page` is a model of the second edition, of which the Rust knows nothing.
pub mod editions;
pub mod job;
#[cfg(feature = "archive")]
pub mod library;
pub mod lines;
pub mod machine;
pub mod numbers;
pub mod outside;
pub mod page;
pub mod paint;
pub mod picture;
pub mod question;
pub mod random;
pub mod skips;
pub mod trace;
pub mod visits;
pub mod ways;
