//! A run in words: each line with a sentence and the holders after it, every
//! entry where that is asked for, then the end, the counts and each process.

mod blocks;
mod processes;

use data::Run;

use crate::code::Code;
use crate::empty_cells::EmptyCells;
use crate::history::each_step;
use crate::holders::Holders;
use crate::input::case::{Case, CaseOptions};
use crate::sentence::sentence;

/// Sentences start after the numbers of most lines.
const INDENT: usize = 22;

/// A run of more entries is gone through entry by entry only where all of them
/// are asked for.
pub const MOST_STEPPED: usize = 5_000;

/// A run with what is needed to explain it.
#[derive(Clone, Copy)]
struct RunContext<'r> {
    case: &'r Case,
    code: &'r Code,
    run: &'r Run,
}

/// Explains a run of a case. With `all`, every entry is shown, idle ones too.
pub fn explain(given: &CaseOptions, case: &Case, code: &Code, run: &Run, all: bool) -> String {
    let context = RunContext { case, code, run };
    let mut text = LEGEND.to_string();
    let mut emptied = None;
    if all {
        let (entries, last) = blocks::entries(given, context);
        text += &entries;
        emptied = Some(last);
    } else {
        text += &lines(context);
        if run.entries <= MOST_STEPPED {
            let mut last = EmptyCells::default();
            each_step(given, case, run, |step| last.read(step));
            emptied = Some(last);
        }
    }
    text += &counts(context);
    text += &processes::processes(context, emptied.as_ref());
    text
}

const LEGEND: &str = "\
q0 is qubit 0, c1.0 is end 0 of channel 1, bob 2 (table 20) is instruction 2 of method bob and 20 of the table, from 0

";

/// Each line with a sentence and the holders so far.
fn lines(context: RunContext) -> String {
    let mut holders = Holders::default();
    let lines = context.run.lines.iter().map(|line| {
        holders.read(line);
        let sentence = sentence(line, context.code);
        format!("{line:INDENT$} {sentence}\n{:INDENT$} held {}\n", "", holders.text())
    });
    lines.collect()
}

/// The last printed line, and the same in words.
fn counts(context: RunContext) -> String {
    let answer = context.run.answer();
    format!(
        "{answer}\n\n\
         end {}: {}\n\
         entries used: {} of {}, lines written: {}, outcomes used: {} of {}\n",
        answer.end.number(),
        answer.end,
        answer.entries,
        context.case.schedule.len(),
        answer.lines,
        answer.outcomes,
        context.case.outcomes.len()
    )
}
