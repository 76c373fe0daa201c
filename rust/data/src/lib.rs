//! Plain data of the LanQ process machine, shared by the model, the binding of
//! the proved library, the comparison of the two, and the command.
//!
//! Nothing here says what the machine does. A type has the numbers that
//! document 01 gives to its cases, and words for them; how a run comes about is
//! said by the model and, apart from it, by the proved library. "01" in a
//! comment means that document, "Paper 3" the third paper of document 02; words
//! in quotation marks are taken from them.
//!
//! - [`refusal`]: the questions, and a refusal
//! - [`run`]: ends, the answer of a run, and a run with all it leaves
//! - [`mod@line`]: trace lines and what they say
//! - [`look_up`]: what the look-up of a holder answers
//! - [`configuration`]: values, frames, processes, holders
//! - [`fault`]: what stops a process
//! - [`types`]: types, sides and gates
//! - [`program`]: methods as plain numbers, and the table they make
//! - [`mod@file`]: the input file of the printing program
//! - [`texts`]: LanQ texts with what they are answered

#![forbid(unsafe_code)]

pub mod configuration;
pub mod fault;
pub mod file;
pub mod line;
pub mod look_up;
pub mod program;
pub mod refusal;
pub mod run;
pub mod texts;
pub mod types;

pub use configuration::{
    Configuration, Frame, Holders, Process, State, Thing, Value, CHANNELS, QUBITS, SLOTS, WORK_WORDS,
};
pub use fault::Fault;
pub use line::{Event, Line, LINE_WORDS, NO_CLICK, UNUSED};
pub use look_up::LookUp;
pub use refusal::{Question, Refusal};
pub use run::{Answer, End, Run};
pub use types::{CarriedType, Gate, Side, Type};

/// The case of an enum that has this number.
fn numbered<T: Copy>(all: &[T], number: impl Fn(T) -> u16, wanted: u16) -> Option<T> {
    all.iter().copied().find(|one| number(*one) == wanted)
}
