//! Schedules that are made: the processes in turn. A made schedule is printed,
//! so that its run can be repeated.

use data::{End, Run};

use crate::asm::list::items;
use crate::history::{each_step, Step};
use crate::input::case::{Case, CaseOptions};
use crate::input::numbers::{Schedule, MOST_ENTRIES};
use crate::machine::{Machine, Runner};
use crate::readiness::readiness;

/// A schedule, and how it can be given.
#[derive(Clone, Debug, Default, PartialEq, Eq)]
pub struct MadeSchedule {
    pub entries: Vec<u8>,
    pub written: String,
}

/// Makes a schedule for a case; the error says why there is none. A case that
/// is refused gets an empty one: its run answers the refusal.
pub fn make(asked: &Schedule, case: &Case, given: &CaseOptions) -> Result<MadeSchedule, String> {
    match asked {
        Schedule::Entries(entries) => Ok(MadeSchedule { entries: entries.clone(), written: items(entries).join(",") }),
        Schedule::RoundRobin(entries) => {
            Ok(in_turn(case, given.machine, *entries).map(|turns| turns.0).unwrap_or_default())
        }
        Schedule::UntilStuck => until_stuck(case, given),
    }
}

/// So many entries that name all processes of their run in turn, and that run.
fn in_turn(case: &Case, machine: Machine, entries: usize) -> Option<(MadeSchedule, Run)> {
    let mut runner = Runner::new(machine, None, entries);
    let mut processes = 1;
    loop {
        let made = turns(processes, entries);
        let run = runner.run(&case.program, &made.entries, &case.outcomes).ok()?;
        // A run makes at most 8 processes.
        match u8::try_from(run.configuration.processes.len()) {
            Ok(more) if more > processes => processes = more,
            _ => return Some((made, run)),
        }
    }
}

/// `(0,1,2)*66,0,1`: so many entries of three processes in turn.
fn turns(processes: u8, entries: usize) -> MadeSchedule {
    let schedule: Vec<u8> = (0..processes).cycle().take(entries).collect();
    let turn = usize::from(processes);
    let rest = items(&schedule[..entries % turn]);
    let whole = format!("({})*{}", items(&schedule[..turn.min(entries)]).join(","), entries / turn);
    let written = match (entries / turn, turn) {
        (_, 1) => items(&schedule),
        (0, _) => rest,
        _ => [vec![whole], rest].concat(),
    };
    MadeSchedule { entries: schedule, written: written.join(",") }
}

/// The entries of the processes in turn that move, up to end 1 or 2.
fn until_stuck(case: &Case, given: &CaseOptions) -> Result<MadeSchedule, String> {
    let (Some((made, run)), Some(code)) = (in_turn(case, given.machine, MOST_ENTRIES), &case.code) else {
        return Ok(MadeSchedule::default());
    };
    if !matches!(run.end, End::AllOver | End::Stuck) {
        let why = format!("no end within {MOST_ENTRIES} entries; --schedule round-robin:N runs N of them");
        return Err(format!("until-stuck: {why}"));
    }
    let whole = Case { schedule: made.entries[..run.entries].to_vec(), ..case.clone() };
    let mut moving = Vec::new();
    // The trace of this run has room for all its lines.
    let given = CaseOptions { room: None, ..given.clone() };
    each_step(&given, &whole, &run, |step: &Step| {
        if readiness(code, step.before, step.holders, usize::from(step.process)).is_able() {
            moving.push(step.process);
        }
    });
    let written = items(&moving).join(",");
    Ok(MadeSchedule { entries: moving, written })
}
