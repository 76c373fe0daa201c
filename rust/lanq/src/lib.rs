//! Safe binding of the LanQ process machine, `include/lanq.h`.
//!
//! [`run`] puts the questions and runs a program; [`check`] only puts the
//! questions; [`translate`] gives the table of a LanQ text, and [`run_text`]
//! runs one; [`holder`] and [`same_lines`] read traces, [`stored_holder`] reads
//! the work store. Each is one call of the proved library.
//!
//! [`run_in`] and [`check_in`] do the same as [`run`] and [`check`] on buffers
//! that the caller lends, and allocate nothing; so do [`translate`] and
//! [`run_text`]. [`decode`], [`stored_holder`] and [`lines`] read what a run has
//! left in them. [`reason`] says which rule a refused input breaks.
//!
//! ```
//! use lanq::op::{DROP, MEAS, NEWQ, RET};
//! use lanq::{End, Event, Method, Program};
//!
//! // Main makes a qubit, measures it, drops the outcome and returns.
//! let code = vec![(NEWQ, 0), (MEAS, 0), (DROP, 0), (RET, 0)];
//! let program = Program::from_methods(&[Method { code, ..Method::default() }]);
//!
//! // Four entries of process 0, and one outcome.
//! let run = lanq::run(&program, &[0, 0, 0, 0], &[1])?;
//! assert_eq!(run.end, End::AllOver);
//! for (line, event) in run.events() {
//!     println!("entry {}, process {}: {event:?}", line.entry, line.process);
//! }
//! assert_eq!(run.lines[1].event(), Some(Event::Measured { qubit: 0, outcome: 1 }));
//! assert_eq!(run.configuration.qubits, 1);
//! assert_eq!(lanq::holder(&run, 1, 0).holder, Some(0));
//! # Ok::<(), lanq::Refusal>(())
//! ```
//!
//! A refusal has the number and the place of the question that said no:
//!
//! ```
//! use lanq::{Program, Question};
//!
//! // One method, main, with the table one word short.
//! let program = Program::from(vec![1, 1, 0, 1]);
//! let refusal = lanq::run(&program, &[0], &[]).unwrap_err();
//! assert_eq!((refusal.question, refusal.place), (Question::Sizes, 0));
//! assert_eq!(refusal.to_string(), "refused 1 0");
//! ```

mod layout;
mod program;
mod raw;
mod reason;
mod run;
mod text;
mod trace;

pub use data::program::{op, Method};
pub use data::{
    Answer, CarriedType, Configuration, End, Event, Fault, Frame, Gate, Holders, Line, LookUp, Process, Question,
    Refusal, Run, Side, State, Thing, Type, Value, LINE_WORDS, NO_CLICK, SLOTS, UNUSED, WORK_WORDS,
};
pub use layout::{decode, stored_holder};
pub use program::Program;
pub use reason::{reason, reason_in, OperandKind, Reason, Rule};
pub use run::{check, check_in, left, most_lines, run, run_in};
pub use text::{run_text, translate, Translation, MOST_TABLE_WORDS};
pub use trace::{holder, lines, same_lines, Trace};
