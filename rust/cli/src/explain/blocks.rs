//! Every entry of a run: those with lines one by one, those between them in a
//! block, by process.

use std::collections::BTreeMap;

use crate::code::{Code, Site};
use crate::empty_cells::EmptyCells;
use crate::explain::processes::how;
use crate::explain::{RunContext, INDENT};
use crate::history::{each_step, Step};
use crate::holders::Holders;
use crate::input::case::CaseOptions;
use crate::readiness::readiness;
use crate::sentence::sentence;

/// So many instructions of a row of them are written out.
const MOST_INSTRUCTIONS: usize = 8;
/// So many rows of them are written out.
const MOST_ROWS: usize = 4;

/// All entries in words, and what they have emptied.
pub fn entries(given: &CaseOptions, context: RunContext) -> (String, EmptyCells) {
    let mut text = String::new();
    let mut emptied = EmptyCells::default();
    let mut holders = Holders::default();
    let mut block = Block::default();
    each_step(given, context.case, context.run, |step| {
        emptied.read(step);
        if step.lines.is_empty() {
            block.read(context.code, step);
            return;
        }
        text += &std::mem::take(&mut block).text();
        text += &format!("entry {}: process {}, {}\n", step.entry, step.process, at(context.code, step));
        for line in step.lines {
            holders.read(line);
            text += &format!("{line:INDENT$} {}\n", sentence(line, context.code));
        }
        text += &format!("{:INDENT$} held {}\n", "", holders.text());
    });
    text += &block.text();
    let (used, all) = (context.run.entries, context.case.schedule.len());
    if used < all {
        text += &format!("{} not used\n", spans(&(used..all).collect::<Vec<usize>>()));
    }
    (text, emptied)
}

/// Where the process of an entry stands before it.
fn at(code: &Code, step: &Step) -> String {
    let process = step.before.processes.get(usize::from(step.process));
    let frame = process.and_then(|process| process.top());
    let site = frame.and_then(|frame| code.site(frame.place));
    site.map(|site| site.to_string()).unwrap_or_default()
}

/// Entries without a line.
#[derive(Debug, Default)]
struct Block {
    entries: Vec<usize>,
    processes: BTreeMap<u8, SilentEntries>,
}

/// What one process did in them.
#[derive(Debug, Default)]
struct SilentEntries {
    steps: Vec<Site>,
    idle: Vec<usize>,
    /// Why it was idle first.
    why: String,
}

impl Block {
    fn read(&mut self, code: &Code, step: &Step) {
        self.entries.push(step.entry);
        let number = usize::from(step.process);
        let silent = self.processes.entry(step.process).or_default();
        if readiness(code, step.before, step.holders, number).is_able() {
            let frame = step.before.processes[number].top();
            silent.steps.extend(frame.and_then(|frame| code.site(frame.place)));
            return;
        }
        if silent.idle.is_empty() {
            silent.why = how(code, step.before, step.holders, number);
        }
        silent.idle.push(step.entry);
    }

    fn text(&self) -> String {
        if self.entries.is_empty() {
            return String::new();
        }
        let mut text = format!("{}: no line\n", spans(&self.entries));
        for (number, silent) in &self.processes {
            if !silent.steps.is_empty() {
                text += &format!("    process {number} takes {}\n", rows(&silent.steps));
            }
            if !silent.idle.is_empty() {
                text += &format!("    process {number} is idle at {}: it {}\n", spans(&silent.idle), silent.why);
            }
        }
        text
    }
}

/// `entry 3`, `entries 3 to 5, 9`
fn spans(entries: &[usize]) -> String {
    let runs = entries.chunk_by(|one, next| one + 1 == *next);
    let runs: Vec<String> = runs
        .map(|run| match run {
            [one] => one.to_string(),
            _ => format!("{} to {}", run[0], run[run.len() - 1]),
        })
        .collect();
    let word = if entries.len() == 1 { "entry" } else { "entries" };
    match runs.len() > MOST_INSTRUCTIONS {
        true => format!("{} entries from {} to {}", entries.len(), entries[0], entries[entries.len() - 1]),
        false => format!("{word} {}", runs.join(", ")),
    }
}

/// Steps as rows of instructions that stand one after the other.
fn rows(steps: &[Site]) -> String {
    let rows: Vec<&[Site]> =
        steps.chunk_by(|one, next| one.place + 1 == next.place && one.method == next.method).collect();
    let shown: Vec<String> = rows.iter().take(MOST_ROWS).map(|row| row_text(row)).collect();
    let rest: usize = rows.iter().skip(MOST_ROWS).map(|row| row.len()).sum();
    match rest {
        0 => shown.join("; "),
        _ => format!("{}; and {rest} more, the last {}", shown.join("; "), steps[steps.len() - 1]),
    }
}

/// `main 1 to 3 (table 1 to 3): PUT q, PUT spare, DROP`
fn row_text(row: &[Site]) -> String {
    let (first, last) = (&row[0], &row[row.len() - 1]);
    let numbers = match row.len() {
        1 => first.numbers(),
        _ => format!(
            "{} {} to {} (table {} to {})",
            first.method_name, first.instruction, last.instruction, first.place, last.place
        ),
    };
    let texts: Vec<&str> = row.iter().map(|site| site.text.as_str()).collect();
    match texts.len() > MOST_INSTRUCTIONS {
        true => format!("{numbers}: {}, ... {}", texts[..MOST_INSTRUCTIONS - 1].join(", "), texts[texts.len() - 1]),
        false => format!("{numbers}: {}", texts.join(", ")),
    }
}
