//! Wrong about faults.

use data::{Event, Fault, Frame, Line, State, Value};
use model::machine::Machine;
use model::step::Effect;
use model::table::Op;

use crate::rules::{effect, Rules, RIGHT};
use crate::Wrong;

pub const WRONG: [Wrong; 11] = [
    // Named in document 01 as an error that has been seen.
    ("MEAS uses an outcome when it faults", Rules { effect: outcome_lost, ..RIGHT }),
    ("24 comes before 20", Rules { effect: no_outcome_first, ..RIGHT }),
    ("a fault moves the place on", Rules { effect: place_on, ..RIGHT }),
    ("a fault takes its operand off", Rules { effect: operand_off, ..RIGHT }),
    ("a fault drops the frames", Rules { effect: frames_gone, ..RIGHT }),
    ("a fault writes no line", Rules { effect: no_line, ..RIGHT }),
    ("a fault finishes the process", Rules { effect: finishes, ..RIGHT }),
    ("a 33rd qubit is made", Rules { effect: qubit_33, ..RIGHT }),
    ("a making that faults uses a number", Rules { effect: number_lost, ..RIGHT }),
    ("ints wrap", Rules { effect: wraps, ..RIGHT }),
    ("a two-qubit gate falls on one qubit", Rules { effect: one_qubit, ..RIGHT }),
];

type Change = fn(&Machine, usize, &mut Effect, Fault);

/// The right effect, changed where it is a fault.
fn faulting(machine: &Machine, process: usize, partner: Option<usize>, change: Change) -> Effect {
    let mut effect = effect(machine, process, partner);
    if let Some(fault) = effect.fault {
        change(machine, process, &mut effect, fault);
    }
    effect
}

fn top(effect: &mut Effect, process: usize) -> &mut Frame {
    let frames = &mut effect.config.processes[process].frames;
    frames.last_mut().expect("a stopped process keeps its frames")
}

/// Lets the op go on as if the fault did not exist.
fn goes_on(effect: &mut Effect, process: usize, lines: Vec<Line>) {
    effect.config.processes[process].state = State::Running;
    effect.lines = lines;
    effect.fault = None;
    top(effect, process).place += 1;
}

fn outcome_lost(machine: &Machine, process: usize, partner: Option<usize>) -> Effect {
    faulting(machine, process, partner, |machine, process, effect, _| {
        let left = machine.outcomes_used < machine.outcomes.len();
        if machine.op_of(process) == Some(Op::Measure) && left {
            effect.outcomes_used = 1;
        }
    })
}

fn no_outcome_first(machine: &Machine, process: usize, partner: Option<usize>) -> Effect {
    faulting(machine, process, partner, |machine, process, effect, _| {
        let left = machine.outcomes_used < machine.outcomes.len();
        if machine.op_of(process) == Some(Op::Measure) && !left {
            effect.config.processes[process].state = State::Stopped(Fault::Outcomes);
            effect.lines[0].a = 24;
        }
    })
}

fn place_on(machine: &Machine, process: usize, partner: Option<usize>) -> Effect {
    faulting(machine, process, partner, |_, process, effect, _| top(effect, process).place += 1)
}

fn operand_off(machine: &Machine, process: usize, partner: Option<usize>) -> Effect {
    faulting(machine, process, partner, |_, process, effect, _| {
        top(effect, process).pending.pop();
    })
}

fn frames_gone(machine: &Machine, process: usize, partner: Option<usize>) -> Effect {
    faulting(machine, process, partner, |_, process, effect, _| {
        effect.config.processes[process].frames.clear();
    })
}

fn no_line(machine: &Machine, process: usize, partner: Option<usize>) -> Effect {
    faulting(machine, process, partner, |_, _, effect, _| effect.lines.clear())
}

fn finishes(machine: &Machine, process: usize, partner: Option<usize>) -> Effect {
    faulting(machine, process, partner, |_, process, effect, _| {
        effect.config.processes[process].state = State::Finished;
    })
}

fn qubit_33(machine: &Machine, process: usize, partner: Option<usize>) -> Effect {
    faulting(machine, process, partner, |machine, process, effect, fault| {
        if fault == Fault::Qubits && effect.config.qubits == 32 {
            effect.config.qubits = 33;
            top(effect, process).pending.push(Value::Qubit(32));
            let made = Event::QubitMade { qubit: 32 }.line(machine.entries as u16, process as u16);
            goes_on(effect, process, vec![made]);
        }
    })
}

fn number_lost(machine: &Machine, process: usize, partner: Option<usize>) -> Effect {
    faulting(machine, process, partner, |_, _, effect, fault| match fault {
        Fault::Qubits => effect.config.qubits += 1,
        Fault::Channels => effect.config.channels += 1,
        _ => (),
    })
}

fn wraps(machine: &Machine, process: usize, partner: Option<usize>) -> Effect {
    faulting(machine, process, partner, |machine, process, effect, fault| {
        if fault != Fault::IntRange {
            return;
        }
        let pending = &mut top(effect, process).pending;
        if let (Some(Value::Int(upper)), Some(Value::Int(deeper))) = (pending.pop(), pending.pop()) {
            pending.push(Value::Int(match machine.op_of(process) {
                Some(Op::Sub) => deeper.wrapping_sub(upper),
                _ => deeper.wrapping_add(upper),
            }));
        }
        goes_on(effect, process, Vec::new());
    })
}

fn one_qubit(machine: &Machine, process: usize, partner: Option<usize>) -> Effect {
    faulting(machine, process, partner, |machine, process, effect, fault| {
        let Some(Op::Gate(gate)) = machine.op_of(process) else {
            return;
        };
        if fault == Fault::OneQubit {
            let pending = &mut top(effect, process).pending;
            if let (Some(Value::Qubit(upper)), Some(Value::Qubit(deeper))) = (pending.pop(), pending.pop()) {
                let line = Event::Gate { gate, qubit: deeper, second: Some(upper) };
                goes_on(effect, process, vec![line.line(machine.entries as u16, process as u16)]);
            }
        }
    })
}
