//! A model of the LanQ process machine, written from documents 01 and 02 alone.
//!
//! It favours reading over speed: every part stands for a sentence of 01 and
//! names it, in the order in which 01 brings them. "01" in a comment means
//! that document, "Paper 3" the third paper of document 02; words in quotation
//! marks are taken from them.
//!
//! - [`table`]: the program table, its types and ops
//! - [`mod@check`]: the eight questions put to a program and its inputs
//! - [`typing`]: question 5, the reading "with types alone"
//! - [`state`]: how things start, and what giving empties
//! - [`step`]: what one instruction does
//! - [`gone`]: the station that has gone, Paper 6
//! - [`machine`]: entries, waiting, ends and whole runs
//! - [`owner`]: reach, holders and the ownership statement
//! - [`lookup`]: holder look-up and same-lines answer on any words
//! - [`mod@print`]: the printing program
//! - [`text`]: LanQ text, Paper 1
//!
//! Values, frames, processes, lines and refusals are the crate `data`'s.

#![forbid(unsafe_code)]

pub mod check;
pub mod gone;
pub mod lookup;
pub mod machine;
pub mod owner;
pub mod print;
pub mod state;
pub mod step;
pub mod table;
pub mod text;
pub mod typing;

pub use check::check;
pub use machine::{check_and_run, run, Machine};
pub use table::Program;
