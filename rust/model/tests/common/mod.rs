//! Helpers of the tests: short ways to write programs and to read runs.
#![allow(dead_code)]

use data::program::{table, Method};
use data::{End, Run, WORK_WORDS};
use model::check;
use model::machine::{run, EntryResult, Machine};
use model::owner::{ownership, stored_holders};
use model::table::Program;

/// The number in an unused column.
pub const U: u16 = 65_535;

/// A type's number.
pub const VOID: u16 = 0;
pub const INT_TYPE: u16 = 1;
pub const BOOL_TYPE: u16 = 2;
pub const QBIT: u16 = 3;
pub const CHANNEL_INT: u16 = 17;
pub const CHANNEL_BOOL: u16 = 18;
pub const CHANNEL_QBIT: u16 = 19;
pub const END_INT: u16 = 33;
pub const END_BOOL: u16 = 34;
pub const END_QBIT: u16 = 35;

/// More words than any test's lines need.
pub const AMPLE: usize = 6 * 1000;

pub fn method(return_type: u16, parameters: &[u16], locals: &[u16], code: &[(u16, u16)]) -> Method {
    Method {
        return_type,
        parameters: u16::try_from(parameters.len()).unwrap(),
        slots: [parameters, locals].concat(),
        code: code.to_vec(),
    }
}

/// Main with these slots.
pub fn main_method(slots: &[u16], code: &[(u16, u16)]) -> Method {
    method(VOID, &[], slots, code)
}

/// The program of methods that pass the questions.
pub fn program(methods: &[Method]) -> Program {
    check(&table(methods), &[], &[], WORK_WORDS).expect("the test's program passes")
}

/// A run with an ample trace; ownership and the stored holders are looked at
/// after every entry.
pub fn run_all(methods: &[Method], schedule: &[u8], outcomes: &[u8]) -> Run {
    let program = program(methods);
    let mut machine = Machine::new(&program, outcomes, AMPLE);
    stored_holders(&machine.config, &machine.lines).expect("nobody holds anything");
    for byte in schedule {
        if machine.entry(*byte).is_err() {
            break;
        }
        ownership(&machine.config, &machine.lines).expect("ownership holds");
        stored_holders(&machine.config, &machine.lines).expect("the stored holders are the lines'");
    }
    let whole = run(&program, schedule, outcomes, AMPLE);
    assert_eq!(whole.configuration, machine.config);
    assert_eq!(whole.lines, machine.lines);
    whole
}

/// A run's lines as their words.
pub fn lines(run: &Run) -> Vec<[u16; 6]> {
    run.lines.iter().map(|line| line.words()).collect()
}

/// End, entries, lines, outcomes.
pub fn answer(run: &Run) -> (u16, usize, usize, usize) {
    (run.end.number(), run.entries, run.lines.len(), run.outcomes)
}

/// Takes entries that are all to be taken.
pub fn drive(machine: &mut Machine, schedule: &[u8]) -> Vec<EntryResult> {
    let entries = schedule.iter();
    let taken: Result<Vec<EntryResult>, End> = entries.map(|byte| machine.entry(*byte)).collect();
    taken.expect("every entry is taken")
}

/// The number and place of a table's refusal, (0, 0) where it passes.
pub fn refusal(table: &[u16]) -> (u16, usize) {
    match check(table, &[], &[], WORK_WORDS) {
        Ok(_) => (0, 0),
        Err(refusal) => (refusal.number(), refusal.place),
    }
}

/// The refusal of methods written out.
pub fn refusal_of(methods: &[Method]) -> (u16, usize) {
    refusal(&table(methods))
}
