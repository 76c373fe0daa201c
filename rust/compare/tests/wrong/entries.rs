//! Wrong about entries and ends.

use data::Process;
use model::machine::{Machine, Readiness};
use model::step::Effect;

use crate::rules::{effect, End, Rules, RIGHT};
use crate::Wrong;

pub const WRONG: [Wrong; 12] = [
    // Named in document 01 as an error that has been seen.
    ("end 2 while some process can still step", Rules { end: stuck_by_waiting, ..RIGHT }),
    ("end 0 is asked before 1 and 2", Rules { last_end: |_| End::ScheduleUsed, ..RIGHT }),
    ("end 1 where main is over", Rules { end: main_over, ..RIGHT }),
    ("end 2 where all are over", Rules { end: over_is_stuck, ..RIGHT }),
    ("one that would fault is not able to move", Rules { end: faults_are_stuck, ..RIGHT }),
    ("idle entries are not counted", Rules { idle: |_| (), ..RIGHT }),
    ("the entry that is not taken is counted", Rules { untaken: |machine, _| machine.entries += 1, ..RIGHT }),
    ("the entry that is not taken writes what fits", Rules { untaken: part_of_entry, ..RIGHT }),
    ("the entry that is not taken changes the configuration", Rules { untaken: half_taken, ..RIGHT }),
    ("a full trace ends the run", Rules { fits: room_left, ..RIGHT }),
    ("the trace holds one line less", Rules { room: |words| (words / 6).saturating_sub(1), ..RIGHT }),
    ("a byte names its rest by 8", Rules { named: |byte| usize::from(byte % 8), ..RIGHT }),
];

/// Some process waits and none can meet: those that could step are forgotten.
fn stuck_by_waiting(machine: &Machine) -> Option<End> {
    let numbers = 0..machine.config.processes.len();
    let all: Vec<Readiness> = numbers.map(|number| machine.readiness(number)).collect();
    let meets = all.iter().any(|readiness| matches!(readiness, Readiness::Meets(_)));
    match machine.end_reached() {
        None if all.contains(&Readiness::Waits) && !meets => Some(End::Stuck),
        end => end,
    }
}

fn main_over(machine: &Machine) -> Option<End> {
    match machine.config.processes[0].runs() {
        false => Some(End::AllOver),
        true => machine.end_reached(),
    }
}

fn over_is_stuck(machine: &Machine) -> Option<End> {
    machine.end_reached().map(|_| End::Stuck)
}

fn faults_are_stuck(machine: &Machine) -> Option<End> {
    let numbers = 0..machine.config.processes.len();
    let moves = |number: usize| match machine.readiness(number) {
        Readiness::Meets(_) => true,
        Readiness::Steps => effect(machine, number, None).fault.is_none(),
        _ => false,
    };
    match machine.config.processes.iter().any(Process::runs) && !numbers.into_iter().any(moves) {
        true => Some(End::Stuck),
        false => machine.end_reached(),
    }
}

fn part_of_entry(machine: &mut Machine, effect: Effect) {
    let left = machine.room - machine.lines.len();
    machine.lines.extend(&effect.lines[..left]);
}

fn half_taken(machine: &mut Machine, effect: Effect) {
    machine.config = effect.config;
}

fn room_left(machine: &Machine, effect: &Effect) -> bool {
    machine.lines.len() < machine.room && (RIGHT.fits)(machine, effect)
}
