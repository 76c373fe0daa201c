//! Wrong about outcomes that are no click (Paper 3).

use data::{Event, Fault, Question, Refusal, State, Value};
use generate::Case;
use model::machine::Machine;
use model::step::Effect;
use model::table::Op;
use model::Program;

use crate::before::outcomes_0_and_1;
use crate::rules::{effect, Rules, RIGHT};
use crate::Wrong;

pub const WRONG: [Wrong; 8] = [
    ("outcome byte 2 is refused", Rules { check: outcomes_0_and_1, ..RIGHT }),
    ("outcome byte 3 passes", Rules { check: byte_3_passes, ..RIGHT }),
    ("MEAS pushes 0 for no click", Rules { effect: pushes_0, ..RIGHT }),
    ("MEAS pushes -1 for no click", Rules { effect: pushes_minus_1, ..RIGHT }),
    ("the line of no click says 0", Rules { effect: line_says_0, ..RIGHT }),
    ("the line of no click is left out", Rules { effect: no_line, ..RIGHT }),
    ("no click uses no outcome", Rules { effect: not_used, ..RIGHT }),
    ("no click stops the process", Rules { effect: stops, ..RIGHT }),
];

fn byte_3_passes(case: &Case) -> Result<Program, Refusal> {
    (RIGHT.check)(case).or_else(|refusal| match refusal.question {
        Question::Outcomes if case.outcomes[refusal.place] == 3 => {
            let mut case = case.clone();
            case.outcomes[refusal.place] = 2;
            byte_3_passes(&case)
        }
        _ => Err(refusal),
    })
}

/// The right effect, changed where a measurement had no click.
fn missed(
    machine: &Machine,
    process: usize,
    partner: Option<usize>,
    change: fn(&Machine, usize, &mut Effect),
) -> Effect {
    let mut effect = effect(machine, process, partner);
    if let (Some(Op::Measure), None) = (machine.op_of(process), effect.fault) {
        if machine.outcomes[machine.outcomes_used] == 2 {
            change(machine, process, &mut effect);
        }
    }
    effect
}

fn push(effect: &mut Effect, process: usize, value: i32) {
    let frame = effect.config.processes[process].frames.last_mut().expect("it runs");
    *frame.pending.last_mut().expect("MEAS pushes") = Value::Int(value);
}

fn pushes_0(machine: &Machine, process: usize, partner: Option<usize>) -> Effect {
    missed(machine, process, partner, |_, process, effect| push(effect, process, 0))
}

fn pushes_minus_1(machine: &Machine, process: usize, partner: Option<usize>) -> Effect {
    missed(machine, process, partner, |_, process, effect| push(effect, process, -1))
}

fn line_says_0(machine: &Machine, process: usize, partner: Option<usize>) -> Effect {
    missed(machine, process, partner, |_, _, effect| effect.lines[0].b = 0)
}

fn no_line(machine: &Machine, process: usize, partner: Option<usize>) -> Effect {
    missed(machine, process, partner, |_, _, effect| effect.lines.clear())
}

fn not_used(machine: &Machine, process: usize, partner: Option<usize>) -> Effect {
    missed(machine, process, partner, |_, _, effect| effect.outcomes_used = 0)
}

fn stops(machine: &Machine, process: usize, partner: Option<usize>) -> Effect {
    missed(machine, process, partner, |machine, process, effect| {
        let fault = Fault::Outcomes;
        effect.config = machine.config.clone();
        effect.config.processes[process].state = State::Stopped(fault);
        effect.lines = vec![Event::Stopped { fault }.line(machine.entries as u16, process as u16)];
        effect.outcomes_used = 0;
        effect.fault = Some(fault);
    })
}
