//! Stand-in: the missing root file of this crate.
pub mod cfg;
pub mod color;
pub mod error;
pub mod flow;
pub mod instruction;
pub mod program;
pub mod settings;
pub mod state;
