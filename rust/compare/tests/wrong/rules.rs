//! A machine made of replaceable rules. With `RIGHT` it is the model; a wrong
//! machine has one rule of its own.

use compare::result::{by_model, Buffers, RunResult};
use data::{Process, Refusal, Run};
use generate::Case;
use model::machine::{Machine, Readiness};
use model::step::{self, Effect, Entry};
use model::Program;

pub use data::End;

#[derive(Clone, Copy)]
pub struct Rules {
    /// The questions.
    pub check: fn(&Case) -> Result<Program, Refusal>,
    /// The lines that a trace of so many words holds.
    pub room: fn(usize) -> usize,
    /// The process that a byte names.
    pub named: fn(u8) -> usize,
    /// Ends 1 and 2, before each entry.
    pub end: fn(&Machine) -> Option<End>,
    /// The end after the last entry.
    pub last_end: fn(&Machine) -> End,
    /// How the process named stands.
    pub readiness: fn(&Machine, usize) -> Readiness,
    /// What the entry of a process that is able to move does.
    pub effect: fn(&Machine, usize, Option<usize>) -> Effect,
    /// Whether the entry's lines fit.
    pub fits: fn(&Machine, &Effect) -> bool,
    /// What an idle entry changes.
    pub idle: fn(&mut Machine),
    /// What an entry that is not taken for want of room changes.
    pub untaken: fn(&mut Machine, Effect),
    /// What a run or a refusal leaves in the buffers.
    pub leave: fn(&Case, &Result<Run, Refusal>, Buffers) -> RunResult,
}

pub const RIGHT: Rules = Rules {
    check: |case| model::check(&case.program, &case.schedule, &case.outcomes, case.work_len),
    room: |words| words / 6,
    named: usize::from,
    end: |machine| machine.end_reached(),
    last_end: |machine| machine.end_reached().unwrap_or(End::ScheduleUsed),
    readiness: |machine, number| machine.readiness(number),
    effect,
    fits: |machine, effect| machine.lines.len() + effect.lines.len() <= machine.room,
    idle: |machine| machine.entries += 1,
    untaken: |_, _| (),
    leave: |_, ran, buffers| by_model(ran, buffers),
};

/// What the model's step does.
pub fn effect(machine: &Machine, process: usize, partner: Option<usize>) -> Effect {
    let op = machine.op_of(process).expect("a process able to move runs");
    let entry = Entry {
        program: machine.program,
        outcomes: &machine.outcomes[machine.outcomes_used..],
        lines: &machine.lines,
        number: machine.entries as u16,
        process,
    };
    step::take(entry, &machine.config, op, partner)
}

/// Ends 1 and 2, where processes stand by this rule.
pub fn end_by(machine: &Machine, readiness: fn(&Machine, usize) -> Readiness) -> Option<End> {
    let mut numbers = 0..machine.config.processes.len();
    if !machine.config.processes.iter().any(Process::runs) {
        return Some(End::AllOver);
    }
    (!numbers.any(|number| readiness(machine, number).is_able())).then_some(End::Stuck)
}

/// The lent trace and work store after a machine of these rules.
pub fn left(rules: &Rules, case: &Case, buffers: Buffers) -> RunResult {
    let ran = (rules.check)(case).map(|program| run(rules, &program, case));
    (rules.leave)(case, &ran, buffers)
}

fn run(rules: &Rules, program: &Program, case: &Case) -> Run {
    let mut machine = Machine::new(program, &case.outcomes, case.trace_len);
    machine.room = (rules.room)(case.trace_len);
    let mut bytes = case.schedule.iter();
    let end = loop {
        match bytes.next() {
            None => break (rules.last_end)(&machine),
            Some(byte) => {
                if let Err(end) = entry(rules, &mut machine, *byte) {
                    break end;
                }
            }
        }
    };
    Run {
        end,
        entries: machine.entries,
        lines: machine.lines,
        outcomes: machine.outcomes_used,
        configuration: machine.config,
    }
}

fn entry(rules: &Rules, machine: &mut Machine, byte: u8) -> Result<(), End> {
    if let Some(end) = (rules.end)(machine) {
        return Err(end);
    }
    let process = (rules.named)(byte);
    let partner = match (rules.readiness)(machine, process) {
        Readiness::Steps => None,
        Readiness::Meets(partner) => Some(partner),
        _ => {
            (rules.idle)(machine);
            return Ok(());
        }
    };
    let effect = (rules.effect)(machine, process, partner);
    if !(rules.fits)(machine, &effect) {
        (rules.untaken)(machine, effect);
        return Err(End::TraceFull);
    }
    machine.config = effect.config;
    machine.lines.extend(effect.lines);
    machine.outcomes_used += effect.outcomes_used;
    machine.entries += 1;
    Ok(())
}
