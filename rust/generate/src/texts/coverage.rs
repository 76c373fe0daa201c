//! What the texts have brought about, and what is missing.

use std::collections::BTreeMap;

use data::{Gate, Value, WORK_WORDS};
use model::check::check;
use model::machine::{EntryResult, Machine};
use model::table::{Op, Program};
use model::text::names;
use model::text::read::{read, read_by, Rules, PAPER_1};
use model::text::run::Machine as TextMachine;
use model::text::tree::Tree;
use model::text::{translate, Reason};

use super::mark::{all_marks, Limit, Part, TextMark};
use super::scan::parts;
use super::sizes::{brackets, sizes};
use super::TextCase;

/// Counts of marks.
#[derive(Clone, Debug, Default)]
pub struct TextCoverage {
    counts: BTreeMap<TextMark, u64>,
}

impl TextCoverage {
    pub fn new() -> TextCoverage {
        TextCoverage::default()
    }

    pub fn add(&mut self, mark: TextMark) {
        *self.counts.entry(mark).or_insert(0) += 1;
    }

    pub fn count(&self, mark: TextMark) -> u64 {
        self.counts.get(&mark).copied().unwrap_or(0)
    }

    /// All counts.
    pub fn counts(&self) -> &BTreeMap<TextMark, u64> {
        &self.counts
    }

    /// Every mark that can be seen and was not.
    pub fn missing(&self) -> Vec<TextMark> {
        let all = all_marks().into_iter();
        all.filter(|mark| self.count(*mark) == 0).collect()
    }

    pub fn has(&mut self, part: Part) {
        self.add(TextMark::Has(part));
    }

    // Limits.

    /// Marks of the limits that the sizes reach, or go past by so many.
    fn limits(&mut self, sizes: &[(Limit, usize)], past: usize, mark: fn(Limit) -> TextMark) {
        for (limit, size) in sizes {
            if *size == limit.most() + past {
                self.add(mark(*limit));
            }
        }
    }

    // The run.

    fn entry(&mut self, before: &Machine, byte: u8, did: EntryResult, after: &Machine) {
        let process = usize::from(byte);
        match did {
            EntryResult::Idle => {}
            EntryResult::Stopped(fault) => self.add(TextMark::Fault(fault.number())),
            EntryResult::Stepped => self.executed(before, process),
            EntryResult::Met(partner) => {
                self.executed(before, process);
                self.executed(before, partner);
            }
        }
        for line in &after.lines[before.lines.len()..] {
            self.add(TextMark::Line(line.kind));
        }
        let frames = || after.config.processes.iter().flat_map(|process| &process.frames);
        if frames().any(|frame| frame.pending.contains(&Value::Empty)) {
            self.add(TextMark::EmptiedPending);
        }
    }

    fn executed(&mut self, before: &Machine, process: usize) {
        let Some(op) = before.op_of(process) else { return };
        self.add(TextMark::Op(op.number()));
        match op {
            Op::Gate(gate) => self.add(TextMark::Gate(Gate::number(gate))),
            Op::NewChannel(carried) => self.add(TextMark::NewChannel(carried.number())),
            Op::End(side) => self.add(TextMark::EndSide(side.number())),
            Op::JumpFalse(_) => {
                let top = before.config.processes[process].top().and_then(|frame| frame.pending.last());
                self.add(TextMark::JumpOnFalse(top == Some(&Value::Bool(false))));
            }
            _ => {}
        }
    }
}

/// Puts a text to the model, runs its tree and its table side by side, and counts
/// what it brings about. An error says where the two differ.
pub fn observe_text(case: &TextCase, coverage: &mut TextCoverage) -> Result<(), String> {
    if let Ok(tree) = read(&case.text) {
        parts(&tree, coverage);
    }
    let answer = translate(&case.text);
    if brackets(&case.text) >= 40 {
        coverage.add(TextMark::DeepBrackets(answer.is_ok()));
    }
    let words = match answer {
        Ok(words) => words,
        Err(refusal) => {
            coverage.add(TextMark::Refused(refusal.reason));
            passed_by_one(&case.text, refusal.reason, coverage);
            if refusal.place > 0 {
                coverage.add(TextMark::FurtherOn(refusal.number));
            }
            return Ok(());
        }
    };
    coverage.add(TextMark::Accepted);
    let tree = model::text::tree(&case.text).map_err(|refusal| refusal.to_string())?;
    let checked = check(&words, &case.schedule, &case.outcomes, WORK_WORDS);
    let program = checked.map_err(|refusal| format!("the table that was given out is {refusal}"))?;
    coverage.limits(&sizes(&tree), 0, TextMark::Reached);
    side_by_side(case, &tree, &program, coverage)
}

/// Marks of the limit that a text is refused for, where it passes it by one. Nesting is
/// counted on the tree that is read without its limit.
fn passed_by_one(text: &[u8], reason: Reason, coverage: &mut TextCoverage) {
    let limit = match reason {
        Reason::Methods => Limit::Methods,
        Reason::Instructions => Limit::Instructions,
        Reason::Parameters => Limit::Parameters,
        Reason::Slots => Limit::Slots,
        Reason::Number => Limit::Number,
        Reason::Nesting => Limit::Nesting,
        Reason::Types => Limit::Pending,
        _ => return,
    };
    let without = Rules { nesting: 1_000, ..PAPER_1 };
    let Ok(tree) = read_by(text, without) else { return };
    if names::check(&tree).is_ok() {
        let sizes = sizes(&tree).into_iter().filter(|(other, _)| *other == limit);
        coverage.limits(&sizes.collect::<Vec<_>>(), 1, TextMark::PassedByOne);
    }
}

fn side_by_side(case: &TextCase, tree: &Tree, program: &Program, coverage: &mut TextCoverage) -> Result<(), String> {
    let mut on_table = Machine::new(program, &case.outcomes, case.trace_len);
    let mut on_tree = TextMachine::new(tree, &case.outcomes, case.trace_len);
    for byte in &case.schedule {
        let before = on_table.clone();
        let did = on_table.entry(*byte);
        match (did, on_tree.entry(*byte)) {
            (Ok(did), Ok(())) => coverage.entry(&before, *byte, did, &on_table),
            (Err(one), Err(other)) if one == other => break,
            (one, other) => return Err(format!("entry {}: {one:?} and {other:?}", on_table.entries)),
        }
        same_standing(&on_table, &on_tree)?;
    }
    let on_table = model::run(program, &case.schedule, &case.outcomes, case.trace_len);
    let on_tree = model::text::run(tree, &case.schedule, &case.outcomes, case.trace_len);
    coverage.add(TextMark::End(on_table.end.number()));
    let same = on_table.answer() == on_tree.answer()
        && on_table.lines == on_tree.lines
        && on_table.configuration.holders == on_tree.holders;
    match same {
        true => Ok(()),
        false => Err(format!("{} and {}", on_table.answer(), on_tree.answer())),
    }
}

/// Lines, counts, states and pending values, frame by frame.
fn same_standing(on_table: &Machine, on_tree: &TextMachine) -> Result<(), String> {
    let counts = |entries, outcomes, lines| (entries, outcomes, lines);
    let table = counts(on_table.entries, on_table.outcomes_used, on_table.lines.len());
    let tree = counts(on_tree.entries, on_tree.outcomes_used, on_tree.lines.len());
    if table != tree || on_table.lines != on_tree.lines {
        return Err(format!("{table:?} and {tree:?}"));
    }
    if on_table.config.processes.len() != on_tree.config.processes.len() {
        return Err("other processes".to_string());
    }
    for (table, tree) in on_table.config.processes.iter().zip(&on_tree.config.processes) {
        let pending: Vec<Vec<Value>> = tree.frames.iter().map(|frame| frame.pending()).collect();
        let expected: Vec<Vec<Value>> = table.frames.iter().map(|frame| frame.pending.clone()).collect();
        if table.state != tree.state || pending != expected {
            return Err(format!("entry {}: {expected:?} and {pending:?}", on_table.entries));
        }
    }
    Ok(())
}
