//! Wrong about meetings.

use data::{Event, Fault, Frame, Line, Side, State, Thing, Value};
use model::gone::NoPartner;
use model::machine::{Machine, Readiness};
use model::owner::{holder, reach};
use model::step::Effect;
use model::table::Op;

use crate::before::gone_waits;
use crate::rules::{effect, end_by, End, Rules, RIGHT};
use crate::Wrong;

pub const WRONG: [Wrong; 15] = [
    // Named in document 01 as an error that has been seen.
    ("a process meets itself", Rules { readiness: with_itself, effect: to_itself, ..RIGHT }),
    ("a partner with an emptied value is ready", Rules { readiness: never_mind_value, ..RIGHT }),
    ("an emptied operand waits", Rules { readiness: emptied_waits, ..RIGHT }),
    ("only the sender can be named", Rules { readiness: sender_only, ..RIGHT }),
    ("only the process named moves on", Rules { effect: one_moves, ..RIGHT }),
    ("a meeting's lines are under the process named", Rules { effect: under_named, ..RIGHT }),
    ("a meeting's line has the receiver's side", Rules { effect: other_side, ..RIGHT }),
    ("an int is passed by its low 16 bits", Rules { effect: low_bits, ..RIGHT }),
    ("the receiver gets nothing", Rules { effect: nothing_received, ..RIGHT }),
    // Paper 6.
    ("who waits for itself waits", Rules { readiness: waits_for_itself, end: itself_is_stuck, ..RIGHT }),
    ("a holder that has stopped is there", Rules { readiness: waits_for_stopped, end: stopped_is_stuck, ..RIGHT }),
    ("33 does not make able to move", Rules { end: gone_is_stuck, ..RIGHT }),
    ("a holder that has lost its reference has gone", Rules { readiness: by_reach, effect: by_reach_33, ..RIGHT }),
    ("33 comes before 20", Rules { effect: gone_before_empty, ..RIGHT }),
    ("whoever made the channel is waited for", Rules { readiness: by_maker, effect: by_maker_33, ..RIGHT }),
];

fn top<'a>(machine: &'a Machine, number: usize) -> Option<&'a Frame> {
    machine.config.processes.get(number)?.top()
}

/// The end that a process at SEND has below its value.
fn end_at_send(machine: &Machine, number: usize) -> Option<(u16, Side)> {
    let pending = &top(machine, number)?.pending;
    match (machine.op_of(number)?, pending.as_slice()) {
        (Op::Send, [.., Value::End(channel, side), _]) => Some((*channel, *side)),
        _ => None,
    }
}

/// At SEND, with the opposite end in reach.
fn with_itself(machine: &Machine, number: usize) -> Readiness {
    let readiness = machine.readiness(number);
    match end_at_send(machine, number) {
        Some((channel, side)) if !matches!(readiness, Readiness::Meets(_)) => {
            let opposite = Value::End(channel, side.other());
            let both = machine.config.processes[number].values().any(|value| value == opposite);
            if both {
                Readiness::Meets(number)
            } else {
                readiness
            }
        }
        _ => readiness,
    }
}

/// The value is off, the lines name the process as its own receiver.
fn to_itself(machine: &Machine, process: usize, partner: Option<usize>) -> Effect {
    let (Some((channel, side)), true) = (end_at_send(machine, process), partner == Some(process)) else {
        return effect(machine, process, partner);
    };
    let mut config = machine.config.clone();
    let frame = config.processes[process].frames.last_mut().expect("it runs");
    frame.pending.truncate(frame.pending.len() - 2);
    frame.place += 1;
    let number = process as u16;
    let met = Line::from_words([machine.entries as u16, number, 7, number, channel, side.number()]);
    Effect { config, lines: vec![met], outcomes_used: 0, fault: None }
}

fn never_mind_value(machine: &Machine, number: usize) -> Readiness {
    let readiness = machine.readiness(number);
    let own = top(machine, number).and_then(|frame| frame.pending.last().copied());
    let (Readiness::Waits, Some(Op::Receive), Some(Value::End(channel, side))) =
        (readiness, machine.op_of(number), own)
    else {
        return readiness;
    };
    let mut others = 0..machine.config.processes.len();
    let ready = others.find(|other| end_at_send(machine, *other) == Some((channel, side.other())) && *other != number);
    ready.map_or(readiness, Readiness::Meets)
}

fn emptied_waits(machine: &Machine, number: usize) -> Readiness {
    match (machine.readiness(number), machine.op_of(number)) {
        (Readiness::Steps, Some(Op::Send | Op::Receive)) if machine.gone_for(number).is_none() => Readiness::Waits,
        (readiness, _) => readiness,
    }
}

fn sender_only(machine: &Machine, number: usize) -> Readiness {
    match (machine.readiness(number), machine.op_of(number)) {
        (Readiness::Meets(_), Some(Op::Receive)) => Readiness::Waits,
        (readiness, _) => readiness,
    }
}

fn one_moves(machine: &Machine, process: usize, partner: Option<usize>) -> Effect {
    let mut effect = effect(machine, process, partner);
    if let Some(partner) = partner {
        effect.config.processes[partner] = machine.config.processes[partner].clone();
    }
    effect
}

fn under_named(machine: &Machine, process: usize, partner: Option<usize>) -> Effect {
    let mut effect = effect(machine, process, partner);
    effect.lines.iter_mut().for_each(|line| line.process = process as u16);
    effect
}

/// Changes the lines of one kind.
fn lines_of_kind(mut effect: Effect, kind: u16, change: fn(&mut Line)) -> Effect {
    effect.lines.iter_mut().filter(|line| line.kind == kind).for_each(change);
    effect
}

fn other_side(machine: &Machine, process: usize, partner: Option<usize>) -> Effect {
    lines_of_kind(effect(machine, process, partner), 7, |line| line.c = 1 - line.c)
}

fn low_bits(machine: &Machine, process: usize, partner: Option<usize>) -> Effect {
    lines_of_kind(effect(machine, process, partner), 8, |line| line.b = 0)
}

fn nothing_received(machine: &Machine, process: usize, partner: Option<usize>) -> Effect {
    let mut effect = effect(machine, process, partner);
    let met = effect.lines.first().filter(|line| line.kind == 7);
    if let Some(receiver) = met.map(|line| usize::from(line.a)) {
        let frame = effect.config.processes[receiver].frames.last_mut().expect("it runs");
        *frame.pending.last_mut().expect("it received") = Value::Empty;
    }
    effect
}

/// Waits where the partner has gone in this way.
fn waits_for(machine: &Machine, number: usize, gone: NoPartner) -> Readiness {
    match machine.gone_for(number) == Some(gone) {
        true => Readiness::Waits,
        false => machine.readiness(number),
    }
}

fn waits_for_itself(machine: &Machine, number: usize) -> Readiness {
    waits_for(machine, number, NoPartner::Itself)
}

fn itself_is_stuck(machine: &Machine) -> Option<End> {
    end_by(machine, waits_for_itself)
}

fn waits_for_stopped(machine: &Machine, number: usize) -> Readiness {
    waits_for(machine, number, NoPartner::Stopped)
}

fn stopped_is_stuck(machine: &Machine) -> Option<End> {
    end_by(machine, waits_for_stopped)
}

fn gone_is_stuck(machine: &Machine) -> Option<End> {
    end_by(machine, gone_waits)
}

/// The end at SEND or RECV, where all operands are there.
fn own_end(machine: &Machine, number: usize) -> Option<(u16, Side)> {
    let pending = &top(machine, number)?.pending;
    match (machine.op_of(number)?, pending.as_slice()) {
        (Op::Send, [.., Value::End(channel, side), value]) if *value != Value::Empty => Some((*channel, *side)),
        (Op::Receive, [.., Value::End(channel, side)]) => Some((*channel, *side)),
        _ => None,
    }
}

/// The model's readiness, but for who waits and whose partner has gone by this
/// rule.
fn standing_by(machine: &Machine, number: usize, has_gone: fn(&Machine, usize) -> bool) -> Readiness {
    match machine.readiness(number) {
        Readiness::Waits if has_gone(machine, number) => Readiness::Steps,
        readiness => readiness,
    }
}

/// 33, where the partner has gone by this rule and the model would let it wait.
fn effect_by(
    machine: &Machine,
    process: usize,
    partner: Option<usize>,
    has_gone: fn(&Machine, usize) -> bool,
) -> Effect {
    match machine.readiness(process) == Readiness::Waits && has_gone(machine, process) {
        true => stopped_by_33(machine, process),
        false => effect(machine, process, partner),
    }
}

fn stopped_by_33(machine: &Machine, process: usize) -> Effect {
    let mut config = machine.config.clone();
    config.processes[process].state = State::Stopped(Fault::Gone);
    let line = Event::Stopped { fault: Fault::Gone }.line(machine.entries as u16, process as u16);
    Effect { config, lines: vec![line], outcomes_used: 0, fault: Some(Fault::Gone) }
}

/// Nobody else reaches the opposite end.
fn out_of_reach(machine: &Machine, number: usize) -> bool {
    let Some((channel, side)) = own_end(machine, number) else {
        return false;
    };
    let opposite = Thing::End(channel, side.other());
    let mut others = machine.config.processes.iter().enumerate().filter(|(other, _)| *other != number);
    !others.any(|(_, other)| other.runs() && reach(other).contains(&opposite))
}

fn by_reach(machine: &Machine, number: usize) -> Readiness {
    standing_by(machine, number, out_of_reach)
}

fn by_reach_33(machine: &Machine, process: usize, partner: Option<usize>) -> Effect {
    effect_by(machine, process, partner, out_of_reach)
}

/// Whoever made the channel counts, not who was given the end.
fn maker_gone(machine: &Machine, number: usize) -> bool {
    let Some((channel, _)) = own_end(machine, number) else {
        return false;
    };
    let made: Vec<Line> = machine.lines.iter().filter(|line| line.kind == 2).copied().collect();
    let maker = holder(&made, Thing::Channel(channel)).map(usize::from);
    maker.is_some_and(|maker| maker != number && !machine.config.processes[maker].runs())
}

fn by_maker(machine: &Machine, number: usize) -> Readiness {
    standing_by(machine, number, maker_gone)
}

fn by_maker_33(machine: &Machine, process: usize, partner: Option<usize>) -> Effect {
    effect_by(machine, process, partner, maker_gone)
}

/// An emptied value at SEND, where the opposite end's holder has gone.
fn gone_before_empty(machine: &Machine, process: usize, partner: Option<usize>) -> Effect {
    let effect = effect(machine, process, partner);
    let (Some(Fault::Empty), Some((channel, side))) = (effect.fault, end_at_send(machine, process)) else {
        return effect;
    };
    match model::gone::gone(&machine.config, &machine.lines, process, channel, side) {
        Some(_) => stopped_by_33(machine, process),
        None => effect,
    }
}
