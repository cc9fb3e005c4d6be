//! Safe calls of `libpiet_c.a`, the proved Piet library: classify a picture's pixels, build its table, run it.
//!
//! Each function lends slices to the function of the same name in C (include/piet.h says what each of them gets) and
//! gives the library's numbered refusal as an error. A refused call leaves every lent slice as it was. The rules
//! themselves are in docs/RULES.md; they have two editions ([`Edition`]). [`run_pixels`] allocates the room itself:
//!
//! ```
//! let pixels = [0xFF, 0xC0, 0xC0, 0xFF, 0x00, 0x00];
//! let picture = piet::Picture::of(&pixels, piet::Shape { height: 1, width: 2, codel: 1 });
//! let terms = piet::Terms { limit: 3, abstract_mode: false, input: b"" };
//! let cells = piet::Cells { stack: 256, outputs: 256 };
//! let told = piet::run_pixels(picture, piet::Edition::Rust, terms, cells)?;
//! assert_eq!(told.to_string(), "status 2\nsteps 3\nat RegRed_0_1 0 0\nstack 1 1\nout 0\n");
//! # Ok::<(), piet::Error>(())
//! ```
//!
//! [`Pixels::of_p6`] reads the pixels of a Netpbm P6 file, and [`Picture::to_p6`] writes them as one. [`Table::visits`]
//! counts how often a run enters each region, and [`Table::history`] keeps which exits it takes.
#![deny(missing_docs, unsafe_code)]

mod calls;
mod colour;
mod edition;
mod ended;
mod error;
mod history;
mod instruction;
mod lent;
mod numbers;
mod output;
mod owned;
mod p6;
mod picture;
mod pixels;
mod pointers;
#[allow(unsafe_code)]
mod raw;
mod refusal;
mod skipped;
mod table;
mod visited;

pub use calls::{
    build, classify, determine_runs_forever, history, label, read_p6, run, run_picture, visits, write_p6,
};
pub use colour::{Colour, Unknown};
pub use edition::Edition;
pub use ended::{Ended, Pictured, Status};
pub use error::Error;
pub use history::History;
pub use instruction::Instruction;
pub use lent::{HistoryRoom, PictureRoom, RunRoom, TableRoom, Terms, VisitsRoom};
pub use numbers::NoSuch;
pub use output::Output;
pub use p6::{Pixels, P6_HEADER};
pub use picture::{Picture, Shape, MOST_CODELS};
pub use pixels::{run_pixels, Cells, Told};
pub use pointers::{Cc, Dp, Pointers};
pub use refusal::Refusal;
pub use skipped::Skipped;
pub use table::{Attempt, Exit, Region, Table, EXITS, LABEL, ROW};
pub use visited::{Visited, Visits};
