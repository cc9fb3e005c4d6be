//! The library through the safe calls.
mod by_chance;
mod classifying;
mod editions;
mod errors;
mod exits;
mod history;
mod labels;
mod numbers;
mod p6;
mod pictures;
mod shapes;
mod skipped;
mod support;
mod tables;
mod visits;
mod worked;
