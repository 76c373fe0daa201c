//! What a run leaves: its answer and every word of the lent buffers, and of
//! the words around them, which no run may touch.

use data::{Answer, Configuration, Refusal, Run, WORK_WORDS};
use generate::{Case, Random};

use crate::layout;

/// Words on either side of a lent buffer.
pub const AROUND: usize = 8;

/// Trace and work store with what lies around them.
#[derive(Clone, Debug, PartialEq, Eq)]
pub struct Buffers {
    trace: Vec<u16>,
    work: Vec<u32>,
}

impl Buffers {
    /// Buffers for a case, full of words that no run has written.
    pub fn dirty(case: &Case, random: &mut Random) -> Buffers {
        Buffers::of_lengths(case.trace_len, case.work_len, random)
    }

    /// The same, of so many words.
    pub fn of_lengths(trace: usize, work: usize, random: &mut Random) -> Buffers {
        Buffers {
            trace: (0..trace + 2 * AROUND).map(|_| random.bits() as u16).collect(),
            work: (0..work + 2 * AROUND).map(|_| random.bits() as u32).collect(),
        }
    }

    /// Trace and work store as they are lent.
    pub fn lent(&mut self) -> (&mut [u16], &mut [u32]) {
        (inner(&mut self.trace), inner(&mut self.work))
    }

    /// The words after the lent trace.
    pub fn after_trace(&mut self) -> &mut [u16] {
        let end = self.trace.len() - AROUND;
        &mut self.trace[end..]
    }
}

fn inner<T>(words: &mut [T]) -> &mut [T] {
    let end = words.len() - AROUND;
    &mut words[AROUND..end]
}

/// What a run leaves.
#[derive(Clone, Debug, PartialEq, Eq)]
pub struct RunResult {
    pub answer: Result<Answer, Refusal>,
    pub buffers: Buffers,
    /// The configuration read back from the work store, after a run.
    pub configuration: Option<Configuration>,
}

/// Runs the case with the library.
pub fn by_library(case: &Case, mut buffers: Buffers) -> RunResult {
    let (trace, work) = buffers.lent();
    let answer = lanq::run_in(&case.program, &case.schedule, &case.outcomes, trace, work);
    let configuration = answer.ok().and_then(|_| lanq::decode(work));
    RunResult { answer, buffers, configuration }
}

/// What the model's run or refusal leaves in these buffers.
pub fn by_model(ran: &Result<Run, Refusal>, mut buffers: Buffers) -> RunResult {
    let run = match ran {
        Ok(run) => run,
        Err(refusal) => return RunResult { answer: Err(*refusal), buffers, configuration: None },
    };
    let lines = run.trace_words();
    let (trace, work) = buffers.lent();
    trace[..lines.len()].copy_from_slice(&lines);
    work[..WORK_WORDS].copy_from_slice(&layout::words(&run.configuration));
    RunResult { answer: Ok(run.answer()), buffers, configuration: Some(run.configuration.clone()) }
}

/// The first thing in which the two differ.
pub fn difference(library: &RunResult, model: &RunResult) -> Option<String> {
    if library.answer != model.answer {
        return Some(format!("answer {:?}, model {:?}", library.answer, model.answer));
    }
    let trace = first_difference(&library.buffers.trace, &model.buffers.trace);
    if let Some(difference) = trace {
        return Some(format!("trace word {difference}"));
    }
    let work = first_difference(&library.buffers.work, &model.buffers.work);
    if let Some(difference) = work {
        return Some(format!("work word {difference}"));
    }
    let (ours, theirs) = (&library.configuration, &model.configuration);
    (ours != theirs).then(|| format!("configuration {ours:?}, model {theirs:?}"))
}

/// The first place, counted from the lent buffer's start, with both words.
fn first_difference<T: PartialEq + std::fmt::Display>(ours: &[T], theirs: &[T]) -> Option<String> {
    assert_eq!(ours.len(), theirs.len(), "buffers keep their lengths");
    let at = ours.iter().zip(theirs).position(|(a, b)| a != b)?;
    let place = at as isize - AROUND as isize;
    Some(format!("{place}: {}, model {}", ours[at], theirs[at]))
}
