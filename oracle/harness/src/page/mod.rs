//! A model of the second edition of the rules, which is the public page's: tables of pictures, runs over any table, and
//! runs of a picture by its codels alone. It is written from the page and the rules, and has nothing of the Rust that is
//! ported nor of the port, so that what it says counts as a second opinion. It is made to be read and not to be fast.
mod commands;
mod grid;
mod input;
mod op;
mod run;
mod table;
#[cfg(test)]
mod tests;

pub use commands::{Parting, BAD_INPUT, OUTPUT_FULL, STACK_FULL};
pub use grid::{Grid, Pointers};
pub use run::{run_grid, run_table, End, Terms, COMPLETED, MAX_STEPS, NEEDS_INPUT};
pub use table::{build, build_short, Table, LOST};
