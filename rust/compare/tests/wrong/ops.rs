//! Wrong about single ops.

use data::{Frame, Value};
use model::machine::Machine;
use model::step::Effect;
use model::table::Op;

use crate::rules::{effect, Rules, RIGHT};
use crate::Wrong;

pub const WRONG: [Wrong; 9] = [
    ("SUB puts the upper first", Rules { effect: sub, ..RIGHT }),
    ("LESS puts the upper first", Rules { effect: less, ..RIGHT }),
    ("JFALSE jumps on true", Rules { effect: jump_on_true, ..RIGHT }),
    ("INT has no sign", Rules { effect: unsigned, ..RIGHT }),
    ("GET empties the slot", Rules { effect: get_moves, ..RIGHT }),
    ("CLEAR leaves the slot as it was", Rules { effect: clear_nothing, ..RIGHT }),
    ("MEAS pushes 0", Rules { effect: measures_0, ..RIGHT }),
    ("a gate's upper qubit comes first", Rules { effect: upper_first, ..RIGHT }),
    ("a finished process keeps its frame", Rules { effect: frame_kept, ..RIGHT }),
];

fn top(effect: &mut Effect, process: usize) -> &mut Frame {
    let frames = &mut effect.config.processes[process].frames;
    frames.last_mut().expect("a running process has a frame")
}

/// The value that the op has pushed.
fn pushed(effect: &mut Effect, process: usize) -> &mut Value {
    top(effect, process).pending.last_mut().expect("the op pushes")
}

fn change_int(value: &mut Value, change: fn(i32) -> i32) {
    if let Value::Int(old) = value {
        *old = change(*old);
    }
}

/// The right effect, changed where the op has been executed.
fn executed(
    machine: &Machine,
    process: usize,
    partner: Option<usize>,
    change: fn(&Machine, usize, Op, &mut Effect),
) -> Effect {
    let mut effect = effect(machine, process, partner);
    if let (Some(op), None) = (machine.op_of(process), effect.fault) {
        change(machine, process, op, &mut effect);
    }
    effect
}

/// The pending values before the entry.
fn before<'a>(machine: &'a Machine, process: usize) -> &'a [Value] {
    let top = machine.config.processes[process].top();
    &top.expect("a running process has a frame").pending
}

fn sub(machine: &Machine, process: usize, partner: Option<usize>) -> Effect {
    executed(machine, process, partner, |_, process, op, effect| {
        if op == Op::Sub {
            change_int(pushed(effect, process), i32::wrapping_neg);
        }
    })
}

fn less(machine: &Machine, process: usize, partner: Option<usize>) -> Effect {
    executed(machine, process, partner, |machine, process, op, effect| {
        if let (Op::Less, [.., Value::Int(deeper), Value::Int(upper)]) = (op, before(machine, process)) {
            *pushed(effect, process) = Value::Bool(upper < deeper);
        }
    })
}

fn jump_on_true(machine: &Machine, process: usize, partner: Option<usize>) -> Effect {
    executed(machine, process, partner, |machine, process, op, effect| {
        if let (Op::JumpFalse(target), [.., Value::Bool(jumps)]) = (op, before(machine, process)) {
            let frame = machine.config.processes[process].top().expect("it runs");
            let start = machine.program.methods[frame.method].offset;
            top(effect, process).place = if *jumps { start + target } else { frame.place + 1 };
        }
    })
}

fn unsigned(machine: &Machine, process: usize, partner: Option<usize>) -> Effect {
    executed(machine, process, partner, |_, process, op, effect| {
        if let Op::Int(_) = op {
            change_int(pushed(effect, process), |value| value & 65_535);
        }
    })
}

fn get_moves(machine: &Machine, process: usize, partner: Option<usize>) -> Effect {
    executed(machine, process, partner, |_, process, op, effect| {
        if let Op::Get(slot) = op {
            top(effect, process).slots[slot] = Value::Empty;
        }
    })
}

fn clear_nothing(machine: &Machine, process: usize, partner: Option<usize>) -> Effect {
    executed(machine, process, partner, |machine, process, op, effect| {
        if let Op::Clear(slot) = op {
            let old = machine.config.processes[process].top().expect("it runs").slots[slot];
            top(effect, process).slots[slot] = old;
        }
    })
}

fn measures_0(machine: &Machine, process: usize, partner: Option<usize>) -> Effect {
    executed(machine, process, partner, |_, process, op, effect| {
        if op == Op::Measure {
            *pushed(effect, process) = Value::Int(0);
        }
    })
}

fn upper_first(machine: &Machine, process: usize, partner: Option<usize>) -> Effect {
    executed(machine, process, partner, |_, _, op, effect| match op {
        Op::Gate(gate) if gate.takes_two() => {
            let line = &mut effect.lines[0];
            (line.b, line.c) = (line.c, line.b);
        }
        _ => (),
    })
}

fn frame_kept(machine: &Machine, process: usize, partner: Option<usize>) -> Effect {
    executed(machine, process, partner, |machine, process, _, effect| {
        if effect.config.processes[process].frames.is_empty() {
            effect.config.processes[process].frames = machine.config.processes[process].frames.clone();
        }
    })
}
