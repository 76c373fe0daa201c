//! Inputs for comparing machines with the model: deterministic, each named by
//! a seed.
//!
//! - [`case`] gives a program, a schedule, outcomes and the lent lengths
//! - [`fn@file`] gives the bytes of a file for the printing program
//! - [`trace`] gives words to look holders up in, [`pair`] two traces to compare
//! - [`text_case`] gives a LanQ text with a schedule and outcomes
//! - [`Coverage`] counts what the cases have brought about, [`TextCoverage`] what
//!   the texts have

#![forbid(unsafe_code)]

mod coverage;
mod damage;
mod faults;
mod files;
mod helper;
mod limits;
mod mark;
mod mistype;
mod plan;
mod random;
mod schedule;
mod stations;
mod texts;
mod traces;
mod typed;

pub use coverage::{observe, Answer, Coverage};
pub use files::file;
pub use mark::{Mark, StoredHolder};
pub use random::Random;
pub use texts::{observe_text, text_case, TextCase, TextCoverage, TextMark};
pub use traces::{pair, trace, Difference, Pair};

use data::program::{table, Method};
use data::WORK_WORDS;
use model::check::check;
use model::machine::run;
use model::table::Program;

/// The inputs of one comparison.
#[derive(Clone, Debug, PartialEq, Eq)]
pub struct Case {
    pub program: Vec<u16>,
    pub schedule: Vec<u8>,
    pub outcomes: Vec<u8>,
    /// Words of the lent trace.
    pub trace_len: usize,
    /// Words of the lent work store.
    pub work_len: usize,
}

/// The case of a seed.
pub fn case(seed: u64) -> Case {
    let mut random = Random::new(seed);
    let (methods, most) = methods(&mut random);
    let mut case = run_case(&table(&methods), most, &mut random);
    if random.chance(22) {
        damage::damage(&mut case, methods, &mut random);
    }
    case
}

/// A program and the most entries that its schedule is to have.
fn methods(random: &mut Random) -> (Vec<Method>, usize) {
    let most = match random.below(15) {
        0 => random.between(0, 5),
        _ => random.between(20, 400),
    };
    match random.weighted(&[220, 100, 80, 60, 3]) {
        0 => (plan::plan(random), most),
        1 => (typed::typed(random), most),
        2 => (limits::limits(random), most),
        3 => (stations::stations(random), most),
        _ => (limits::endless(random), random.between(8_500, 12_000)),
    }
}

/// Finds a schedule and lengths for a table that passes the questions.
fn run_case(words: &[u16], most: usize, random: &mut Random) -> Case {
    let program = check(words, &[], &[], WORK_WORDS).expect("generated tables pass");
    let outcomes = outcomes(random);
    let schedule = schedule::schedule(&program, &outcomes, most, random);
    let trace_len = trace_len(&program, &schedule, &outcomes, random);
    Case {
        program: words.to_vec(),
        schedule,
        outcomes,
        trace_len,
        work_len: random.pick(&[WORK_WORDS, WORK_WORDS, WORK_WORDS + 1, 10_000]),
    }
}

/// An outcome list; in every second one detectors miss at times.
fn outcomes(random: &mut Random) -> Vec<u8> {
    let count = random.pick(&[0, 1, 3, 8, 30, 30, 30]);
    let values = random.pick(&[2, 3]);
    (0..count).map(|_| random.below(values) as u8).collect()
}

/// Words for the trace: ample, just enough, just too few, or nearly none.
fn trace_len(program: &Program, schedule: &[u8], outcomes: &[u8], random: &mut Random) -> usize {
    let ample = schedule::AMPLE_TRACE;
    let needed = 6 * run(program, schedule, outcomes, ample).lines.len();
    match random.below(14) {
        0 => random.below(13),
        1 => needed,
        2 => needed + random.below(6),
        3 => needed.saturating_sub(random.between(1, 6)),
        4 => random.below(needed + 1),
        _ => 6 * 4_096 + random.below(6),
    }
}
