//! A run entry by entry, how processes stand, and made schedules, each against
//! the model.

mod common;

use std::collections::BTreeSet;

use cli::code::Code;
use cli::empty_cells::{Cause, Cell, EmptyCells};
use cli::history::each_step;
use cli::input::case::{Case, CaseOptions};
use cli::input::make::make;
use cli::input::numbers::Schedule;
use cli::readiness::{readiness, Readiness};
use data::{Configuration, End, Line, Value};
use generate::case;
use lanq::Program;
use model::machine::{Machine, Readiness as Models};

/// A generated case that runs.
fn running(seed: u64) -> Option<Case> {
    let case = case(seed);
    let methods = Program::from(case.program.as_slice()).methods().ok()?;
    let case = Case {
        name: format!("seed {seed}"),
        text: None,
        program: case.program,
        code: Some(Code::of_table(methods)),
        schedule: case.schedule,
        outcomes: case.outcomes,
        made: None,
        unscheduled: false,
    };
    CaseOptions::default().run(&case).is_ok().then_some(case)
}

fn code(case: &Case) -> &Code {
    case.code.as_ref().expect("a case that runs has methods")
}

/// The model's word for how a process stands.
fn as_models(readiness: Readiness) -> &'static str {
    match readiness {
        Readiness::NotStarted => "not started",
        Readiness::Finished => "finished",
        Readiness::Stopped(_) => "stopped",
        Readiness::Waits(_) => "waits",
        Readiness::Gone(_) => "gone",
        Readiness::Moves => "moves",
    }
}

fn of_model(machine: &Machine, number: usize) -> &'static str {
    match machine.readiness(number) {
        Models::NotStarted => "not started",
        Models::Finished => "finished",
        Models::Stopped => "stopped",
        Models::Waits => "waits",
        Models::Steps if machine.gone_for(number).is_some() => "gone",
        Models::Steps | Models::Meets(_) => "moves",
    }
}

#[test]
fn steps_and_standings_are_the_models() {
    let given = CaseOptions::default();
    let mut seen = BTreeSet::new();
    for case in (0..150).filter_map(running) {
        let run = given.run(&case).expect("it runs");
        let program = model::check(&case.program, &[], &[], data::WORK_WORDS).expect("it runs");
        let mut machine = Machine::new(&program, &case.outcomes, 6 * 100_000);
        each_step(&given, &case, &run, |step| {
            assert_eq!(*step.before, machine.config, "{}", case.name);
            for number in 0..9 {
                let ours = as_models(readiness(code(&case), step.before, step.holders, number));
                assert_eq!(ours, of_model(&machine, number), "{}", case.name);
                seen.insert(ours);
            }
            let lines = machine.lines.len();
            machine.entry(step.process).expect("the run has used this entry");
            assert_eq!(*step.after, machine.config, "{}", case.name);
            assert_eq!(*step.lines, machine.lines[lines..], "{}", case.name);
        });
    }
    assert_eq!(seen.len(), 6, "{seen:?}");
}

/// The value of a cell.
fn value(configuration: &Configuration, process: usize, frame: usize, cell: Cell) -> Option<Value> {
    let frame = configuration.processes.get(process)?.frames.get(frame)?;
    match cell {
        Cell::Slot(slot) => frame.slots.get(slot).copied(),
        Cell::Pending(index) => frame.pending.get(index).copied(),
    }
}

/// What is said to be emptied is empty, was not before that entry, and each
/// giving has its line. Nothing that was emptied is left out.
#[test]
fn what_is_emptied() {
    let given = CaseOptions::default();
    let mut met = BTreeSet::new();
    for case in (0..150).filter_map(running) {
        let run = given.run(&case).expect("it runs");
        let mut emptied = EmptyCells::default();
        each_step(&given, &case, &run, |step| {
            let old = emptied.clone();
            emptied.read(step);
            for process in 0..8 {
                for frame in 0..8 {
                    let cells = (0..16).map(Cell::Slot).chain((0..8).map(Cell::Pending));
                    for cell in cells {
                        let before = value(step.before, process, frame, cell);
                        let after = value(step.after, process, frame, cell);
                        let why = emptied.why(process, frame, cell);
                        assert!(why.is_none() || after == Some(Value::Empty), "{}", case.name);
                        let same_frames = step.before.processes.get(process).map(|one| one.frames.len())
                            == step.after.processes.get(process).map(|one| one.frames.len());
                        let full = before.is_some_and(|value| value != Value::Empty);
                        if same_frames && full && after == Some(Value::Empty) {
                            let why = why.unwrap_or_else(|| panic!("{}: nothing said of {cell:?}", case.name));
                            assert_eq!((why.entry, Some(why.value)), (step.entry, before));
                            met.insert(match why.by {
                                Cause::Clear => "clear",
                                Cause::Giving { thing, to } => {
                                    let line = data::Event::Gave { to, thing }.line(step.entry as u16, process as u16);
                                    assert!(step.lines.contains(&line), "{}", case.name);
                                    "giving"
                                }
                            });
                        } else if same_frames && after == Some(Value::Empty) {
                            assert_eq!(why, old.why(process, frame, cell), "{}", case.name);
                        }
                    }
                }
            }
        });
    }
    assert_eq!(met.len(), 2, "{met:?}");
}

/// Lines without their entries' numbers.
fn without_entries(lines: &[Line]) -> Vec<Line> {
    lines.iter().map(|line| Line { entry: 0, ..*line }).collect()
}

/// A schedule until the run is stuck has no idle entry, and its run has the end
/// that the processes in turn come to, with the same lines at other entries.
#[test]
fn until_stuck() {
    let given = CaseOptions::default();
    let mut ends = BTreeSet::new();
    let mut idle_free = 0;
    for mut case in (0..120).filter_map(running) {
        let Ok(made) = make(&Schedule::UntilStuck, &case, &CaseOptions::default()) else {
            continue;
        };
        let turns = make(&Schedule::RoundRobin(65_535), &case, &CaseOptions::default()).expect("a schedule");
        case.schedule = turns.entries;
        let in_turn = given.run(&case).expect("it runs");
        case.schedule = made.entries;
        let run = given.run(&case).expect("it runs");
        assert_eq!((run.end, run.entries), (in_turn.end, case.schedule.len()), "{}", case.name);
        assert_eq!(without_entries(&run.lines), without_entries(&in_turn.lines), "{}", case.name);
        assert_eq!(run.configuration, in_turn.configuration, "{}", case.name);
        each_step(&given, &case, &run, |step| {
            assert!(readiness(code(&case), step.before, step.holders, usize::from(step.process)).is_able());
        });
        ends.insert(run.end);
        idle_free += 1;
    }
    assert_eq!(ends, BTreeSet::from([End::AllOver, End::Stuck]));
    assert!(idle_free > 40, "{idle_free} schedules");
}

/// What is written of a made schedule gives it again.
#[test]
fn made_schedules_can_be_given() {
    for case in (0..60).filter_map(running) {
        for asked in [Schedule::RoundRobin(1), Schedule::RoundRobin(7), Schedule::RoundRobin(100), Schedule::UntilStuck]
        {
            let Ok(made) = make(&asked, &case, &CaseOptions::default()) else { continue };
            let read = cli::input::numbers::schedule(&made.written);
            assert_eq!(read, Ok(Schedule::Entries(made.entries)), "{}", made.written);
        }
    }
}
