//! Wrong about the answer and the words left in the buffers.

use compare::result::{by_model, Buffers, RunResult};
use data::{Answer, Refusal, Run, WORK_WORDS};
use generate::Case;
use model::table::pair_place;

use crate::rules::{Rules, RIGHT};
use crate::Wrong;

pub const WRONG: [Wrong; 14] = [
    ("a refusal clears the store", Rules { leave: refusal_clears, ..RIGHT }),
    ("a refusal writes the trace", Rules { leave: refusal_writes, ..RIGHT }),
    ("unused words of the store are kept", Rules { leave: unused_kept, ..RIGHT }),
    ("words beyond the configuration are cleared", Rules { leave: beyond_cleared, ..RIGHT }),
    ("the trace's tail is cleared", Rules { leave: tail_cleared, ..RIGHT }),
    ("a word after the trace is written", Rules { leave: one_after, ..RIGHT }),
    ("an unused column is 0", Rules { leave: columns_0, ..RIGHT }),
    ("entries are counted from 1 in the trace", Rules { leave: from_1, ..RIGHT }),
    ("places are counted from the method's start", Rules { leave: place_in_method, ..RIGHT }),
    ("pending values stand highest first", Rules { leave: highest_first, ..RIGHT }),
    ("the fault is not stored", Rules { leave: no_fault, ..RIGHT }),
    ("ends of the two sides have one tag", Rules { leave: one_tag, ..RIGHT }),
    ("all outcomes are said to be used", Rules { leave: all_outcomes, ..RIGHT }),
    ("lines are counted in words", Rules { leave: words_for_lines, ..RIGHT }),
];

type ModelRun = Result<Run, Refusal>;

/// The right leavings, changed after a run. The words before are there too.
fn after_run(
    case: &Case,
    ran: &ModelRun,
    buffers: Buffers,
    change: fn(&Case, &Run, &mut Buffers, Buffers),
) -> RunResult {
    let mut left = by_model(ran, buffers.clone());
    if let Ok(run) = ran {
        change(case, run, &mut left.buffers, buffers);
    }
    left
}

/// The right answer, changed after a run.
fn answered(case: &Case, ran: &ModelRun, buffers: Buffers, change: fn(&Case, &mut Answer)) -> RunResult {
    let mut left = by_model(ran, buffers);
    if let Ok(answer) = &mut left.answer {
        change(case, answer);
    }
    left
}

fn refusal_clears(_: &Case, ran: &ModelRun, buffers: Buffers) -> RunResult {
    let mut left = by_model(ran, buffers);
    if ran.is_err() {
        left.buffers.lent().1.fill(0);
    }
    left
}

fn refusal_writes(_: &Case, ran: &ModelRun, buffers: Buffers) -> RunResult {
    let mut left = by_model(ran, buffers);
    if let (Err(refusal), Some(word)) = (ran, left.buffers.lent().0.first_mut()) {
        *word = refusal.number();
    }
    left
}

fn unused_kept(case: &Case, ran: &ModelRun, buffers: Buffers) -> RunResult {
    after_run(case, ran, buffers, |_, _, left, mut before| {
        let old = before.lent().1[..8_192].iter();
        for (word, old) in left.lent().1.iter_mut().zip(old).skip(4_608) {
            *word = *old;
        }
    })
}

fn beyond_cleared(case: &Case, ran: &ModelRun, buffers: Buffers) -> RunResult {
    after_run(case, ran, buffers, |_, _, left, _| left.lent().1[WORK_WORDS..].fill(0))
}

fn tail_cleared(case: &Case, ran: &ModelRun, buffers: Buffers) -> RunResult {
    after_run(case, ran, buffers, |_, run, left, _| left.lent().0[6 * run.lines.len()..].fill(0))
}

fn one_after(case: &Case, ran: &ModelRun, buffers: Buffers) -> RunResult {
    after_run(case, ran, buffers, |_, _, left, _| left.after_trace()[0] ^= 1)
}

fn columns_0(case: &Case, ran: &ModelRun, buffers: Buffers) -> RunResult {
    after_run(case, ran, buffers, |_, run, left, _| {
        let written = &mut left.lent().0[..6 * run.lines.len()];
        written.iter_mut().filter(|word| **word == 65_535).for_each(|word| *word = 0);
    })
}

fn from_1(case: &Case, ran: &ModelRun, buffers: Buffers) -> RunResult {
    after_run(case, ran, buffers, |_, run, left, _| {
        let written = left.lent().0[..6 * run.lines.len()].iter_mut();
        written.step_by(6).for_each(|word| *word = word.wrapping_add(1));
    })
}

/// Each part of a process that was made.
fn parts<'a>(run: &Run, left: &'a mut Buffers) -> impl Iterator<Item = &'a mut [u32]> {
    let made = run.configuration.processes.len();
    left.lent().1[..WORK_WORDS].chunks_exact_mut(512).skip(1).take(made)
}

fn place_in_method(case: &Case, ran: &ModelRun, buffers: Buffers) -> RunResult {
    after_run(case, ran, buffers, |case, run, left, _| {
        for (process, part) in run.configuration.processes.iter().zip(parts(run, left)) {
            for (f, frame) in process.frames.iter().enumerate() {
                part[9 + 4 * f] -= u32::from(case.program[pair_place(frame.method)]);
            }
        }
    })
}

fn highest_first(case: &Case, ran: &ModelRun, buffers: Buffers) -> RunResult {
    after_run(case, ran, buffers, |_, run, left, _| {
        for part in parts(run, left) {
            for f in 0..part[2] as usize {
                let pending = 2 * part[10 + 4 * f] as usize;
                let words = &mut part[96 + 48 * f..][..pending];
                words.reverse();
                words.chunks_exact_mut(2).for_each(|two| two.reverse());
            }
        }
    })
}

fn no_fault(case: &Case, ran: &ModelRun, buffers: Buffers) -> RunResult {
    after_run(case, ran, buffers, |_, run, left, _| parts(run, left).for_each(|part| part[1] = 0))
}

fn one_tag(case: &Case, ran: &ModelRun, buffers: Buffers) -> RunResult {
    after_run(case, ran, buffers, |_, run, left, _| {
        for part in parts(run, left) {
            part[64..448].iter_mut().step_by(2).filter(|tag| **tag == 6).for_each(|tag| *tag = 5);
        }
    })
}

fn all_outcomes(case: &Case, ran: &ModelRun, buffers: Buffers) -> RunResult {
    answered(case, ran, buffers, |case, answer| answer.outcomes = case.outcomes.len())
}

fn words_for_lines(case: &Case, ran: &ModelRun, buffers: Buffers) -> RunResult {
    answered(case, ran, buffers, |_, answer| answer.lines *= 6)
}
