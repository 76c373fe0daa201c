//! The check and the run.

use data::{Answer, End, Question, Refusal, Run, LINE_WORDS, WORK_WORDS};

use crate::layout::decode;
use crate::program::Program;
use crate::raw;
use crate::trace::lines;

/// The most lines that a run of so many entries writes. An entry writes at most
/// nine: FORK's own and one for each of eight arguments.
pub fn most_lines(entries: usize) -> usize {
    9 * entries
}

/// Puts the questions about a program, a schedule and an outcome list. An
/// outcome is 0 or 1, or 2 where the detector has missed.
///
/// ```
/// use lanq::op::{GATE, NEWQ, RET};
/// use lanq::{Method, Program, Question, Refusal};
///
/// // X on nothing: question 5, at the table's instruction 0.
/// let code = vec![(GATE, 1), (RET, 0)];
/// let program = Program::from_methods(&[Method { code, ..Method::default() }]);
/// assert_eq!(lanq::check(&program, &[], &[]), Err(Refusal::new(Question::Types, 0)));
///
/// // With a qubit it is right, but outcomes are 0, 1 or, for no click, 2.
/// let code = vec![(NEWQ, 0), (GATE, 1), (RET, 0)];
/// let program = Program::from_methods(&[Method { code, ..Method::default() }]);
/// assert_eq!(lanq::check(&program, &[0, 0], &[1, 0, 2]), Ok(()));
/// assert_eq!(lanq::check(&program, &[0, 0], &[1, 7]), Err(Refusal::new(Question::Outcomes, 1)));
/// ```
pub fn check(program: &Program, schedule: &[u8], outcomes: &[u8]) -> Result<(), Refusal> {
    check_in(program.words(), schedule, outcomes, WORK_WORDS)
}

/// Puts the questions and, where none says no, runs the program on the
/// schedule. The trace has room for whatever the run writes, so no run of this
/// function has the end [`End::TraceFull`].
///
/// ```
/// use lanq::op::{DROP, END, NEWC, PUT, RECV, RET};
/// use lanq::{End, Fault, Method, Program, State, Value};
///
/// // Main stands at RECV over one end of its own channel, with nobody to meet.
/// let code = vec![(NEWC, 1), (PUT, 0), (END, 0), (RECV, 0), (PUT, 1), (DROP, 0), (RET, 0)];
/// let program = Program::from_methods(&[Method { slots: vec![17, 1], code, ..Method::default() }]);
/// let run = lanq::run(&program, &[0; 10], &[]).unwrap();
/// assert_eq!((run.end, run.entries), (End::AllOver, 4));
/// let main = &run.configuration.processes[0];
/// assert_eq!(main.state, State::Stopped(Fault::Gone));
/// assert_eq!(main.frames[0].place, 3);
/// assert_eq!(main.frames[0].slots[0], Value::Channel(0));
/// ```
pub fn run(program: &Program, schedule: &[u8], outcomes: &[u8]) -> Result<Run, Refusal> {
    // A longer schedule is refused.
    let entries = schedule.len().min(65_535);
    let mut trace = vec![0; LINE_WORDS * most_lines(entries)];
    let mut work = vec![0; WORK_WORDS];
    let answer = run_in(program.words(), schedule, outcomes, &mut trace, &mut work)?;
    Ok(left(answer, &trace, &work))
}

/// Puts the questions about a work store of `work_len` words too.
pub fn check_in(program: &[u16], schedule: &[u8], outcomes: &[u8], work_len: usize) -> Result<(), Refusal> {
    // SAFETY: each pointer is good for its length as long as its slice is
    // borrowed, which is longer than the call. The function reads them alone.
    let answer = unsafe {
        raw::lanq_check(
            program.as_ptr(),
            program.len(),
            schedule.as_ptr(),
            schedule.len(),
            outcomes.as_ptr(),
            outcomes.len(),
            work_len,
        )
    };
    debug_assert_eq!((answer.end, answer.entries, answer.lines, answer.outcomes), (0, 0, 0, 0));
    accepted(&answer)
}

/// Runs a program in buffers that are lent, whatever they held before.
///
/// After a run the first [`Answer::lines`] lines of the trace are written,
/// which [`lines`] reads, and the first [`WORK_WORDS`] words of the work store
/// are the final configuration, which [`decode`] reads; [`left`] reads both. All
/// other words are as they were. After a refusal every word is.
///
/// ```
/// use lanq::op::{DROP, MEAS, NEWQ, RET};
/// use lanq::{decode, lines, run_in, Answer, End, Method, Program, Question, Refusal, State};
///
/// let code = vec![(NEWQ, 0), (MEAS, 0), (DROP, 0), (RET, 0)];
/// let program = Program::from_methods(&[Method { code, ..Method::default() }]);
/// let mut trace = [7; 20];
/// let mut work = vec![7; lanq::WORK_WORDS];
///
/// let answer = run_in(program.words(), &[0, 0, 0, 0], &[1], &mut trace, &mut work).unwrap();
/// assert_eq!(answer, Answer { end: End::AllOver, entries: 4, lines: 3, outcomes: 1 });
/// assert_eq!(trace[0..6], [0, 0, 1, 0, 65535, 65535]); // qubit 0 made
/// assert_eq!(trace[6..12], [1, 0, 4, 0, 1, 65535]); // measured 1
/// assert_eq!(trace[12..18], [3, 0, 9, 65535, 65535, 65535]); // finished
/// assert_eq!(trace[18..], [7, 7]); // kept
/// assert_eq!(lines(&trace)[..answer.lines][2].to_string(), "3 0 9 - - -");
/// assert_eq!(decode(&work).unwrap().processes[0].state, State::Finished);
///
/// // A work store of one word too few is refused by question 8.
/// let refused = run_in(program.words(), &[0], &[1], &mut trace, &mut work[1..]);
/// assert_eq!(refused, Err(Refusal::new(Question::WorkStore, 0)));
/// ```
pub fn run_in(
    program: &[u16],
    schedule: &[u8],
    outcomes: &[u8],
    trace: &mut [u16],
    work: &mut [u32],
) -> Result<Answer, Refusal> {
    // SAFETY: each pointer is good for its length as long as its slice is
    // borrowed, which is longer than the call. Trace and work store are borrowed
    // for this call alone, so they overlap neither each other nor an input.
    let answer = unsafe {
        raw::lanq_run(
            program.as_ptr(),
            program.len(),
            schedule.as_ptr(),
            schedule.len(),
            outcomes.as_ptr(),
            outcomes.len(),
            trace.as_mut_ptr(),
            trace.len(),
            work.as_mut_ptr(),
            work.len(),
        )
    };
    answered(&answer)
}

/// What the library has answered for a run or a refusal.
pub(crate) fn answered(answer: &raw::Answer) -> Result<Answer, Refusal> {
    accepted(answer)?;
    Ok(Answer {
        end: listed("end", answer.end, End::read),
        entries: count(answer.entries),
        lines: count(answer.lines),
        outcomes: count(answer.outcomes),
    })
}

/// All that a run has left in the buffers that it was lent, with what it
/// answered.
///
/// # Panics
/// Where these are not the buffers of the run that gave the answer.
pub fn left(answer: Answer, trace: &[u16], work: &[u32]) -> Run {
    let written = lines(trace).get(..answer.lines);
    Run {
        end: answer.end,
        entries: answer.entries,
        outcomes: answer.outcomes,
        lines: written.expect("a run's lines are in its trace").to_vec(),
        configuration: decode(work).expect("a run leaves a configuration"),
    }
}

/// Nothing where the library has accepted the input.
fn accepted(answer: &raw::Answer) -> Result<(), Refusal> {
    refused(answer.refused, answer.place).map_or(Ok(()), Err)
}

/// The refusal that a number and a place of the library stand for; none where
/// the number is 0.
pub(crate) fn refused(number: u64, place: u64) -> Option<Refusal> {
    match number {
        0 => None,
        number => Some(Refusal::new(listed("refusal", number, Question::read), count(place))),
    }
}

/// Counts and places are lengths or indices of something in memory.
pub(crate) fn count(number: u64) -> usize {
    usize::try_from(number).expect("a count of things in memory")
}

/// The case that a number of the library's answer stands for.
fn listed<T>(what: &str, number: u64, read: fn(u16) -> Option<T>) -> T {
    let case = u16::try_from(number).ok().and_then(read);
    case.unwrap_or_else(|| panic!("the library answered {what} {number}"))
}
