//! Wrong about giving away.

use data::{Frame, Process, Thing, Value};
use model::machine::Machine;
use model::state::{give, giving_empties};
use model::step::Effect;
use model::table::Op;

use crate::rules::{effect, Rules, RIGHT};
use crate::Wrong;

pub const WRONG: [Wrong; 11] = [
    // Named in document 01 as an error that has been seen.
    ("only the variable that was named is emptied", Rules { effect: named_only, ..RIGHT }),
    ("pending values are not emptied", Rules { effect: slots_only, ..RIGHT }),
    ("deeper frames are not emptied", Rules { effect: top_only, ..RIGHT }),
    ("giving an end leaves the channel", Rules { effect: channel_left, ..RIGHT }),
    ("giving an end empties the opposite end", Rules { effect: opposite_too, ..RIGHT }),
    ("giving a channel leaves its ends", Rules { effect: ends_left, ..RIGHT }),
    ("SEND leaves the qubit with the sender", Rules { effect: sender_keeps, ..RIGHT }),
    ("FORK gives its arguments one by one", Rules { effect: one_by_one, ..RIGHT }),
    ("a thing given twice has one line", Rules { effect: one_line, ..RIGHT }),
    ("FORK counts only the things it gives", Rules { effect: things_counted, ..RIGHT }),
    ("CALL gives its arguments away", Rules { effect: call_gives, ..RIGHT }),
];

/// Where a value stands in its giver.
struct Place {
    top: bool,
    pending: bool,
    /// The first slot of its frame with this value.
    first: bool,
    value: Value,
}

/// Who gave in this entry, and what.
fn given(effect: &Effect) -> Option<(usize, Vec<Thing>)> {
    let mut lines = effect.lines.iter().filter(|line| line.kind == 6).peekable();
    let giver = usize::from(lines.peek()?.process);
    let things = lines.filter_map(|line| Thing::read(line.b, line.c));
    Some((giver, things.collect()))
}

/// Puts back what the giving emptied, wherever `keeps` says so.
fn keeping(machine: &Machine, mut effect: Effect, keeps: impl Fn(&[Thing], Place) -> bool) -> Effect {
    let Some((giver, things)) = given(&effect) else {
        return effect;
    };
    let before = &machine.config.processes[giver];
    let frames = before.frames.len();
    let after = &mut effect.config.processes[giver];
    for (f, (before, after)) in before.frames.iter().zip(&mut after.frames).enumerate() {
        let top = f + 1 == frames;
        let slots = before.slots.iter().zip(&mut after.slots).enumerate();
        for (s, (old, new)) in slots {
            let first = !before.slots[..s].contains(old);
            put_back(*old, new, keeps(&things, Place { top, pending: false, first, value: *old }));
        }
        for (old, new) in before.pending.iter().zip(&mut after.pending) {
            put_back(*old, new, keeps(&things, Place { top, pending: true, first: false, value: *old }));
        }
    }
    effect
}

fn put_back(old: Value, new: &mut Value, keeps: bool) {
    if *new == Value::Empty && keeps {
        *new = old;
    }
}

fn named_only(machine: &Machine, process: usize, partner: Option<usize>) -> Effect {
    keeping(machine, effect(machine, process, partner), |_, place| !(place.top && !place.pending && place.first))
}

fn slots_only(machine: &Machine, process: usize, partner: Option<usize>) -> Effect {
    keeping(machine, effect(machine, process, partner), |_, place| place.pending)
}

fn top_only(machine: &Machine, process: usize, partner: Option<usize>) -> Effect {
    keeping(machine, effect(machine, process, partner), |_, place| !place.top)
}

fn channel_left(machine: &Machine, process: usize, partner: Option<usize>) -> Effect {
    keeping(machine, effect(machine, process, partner), |things, place| match place.value {
        Value::Channel(number) => !things.contains(&Thing::Channel(number)),
        _ => false,
    })
}

fn ends_left(machine: &Machine, process: usize, partner: Option<usize>) -> Effect {
    keeping(machine, effect(machine, process, partner), |things, place| match place.value {
        Value::End(number, side) => !things.contains(&Thing::End(number, side)),
        _ => false,
    })
}

fn sender_keeps(machine: &Machine, process: usize, partner: Option<usize>) -> Effect {
    let effect = effect(machine, process, partner);
    match partner {
        Some(_) => keeping(machine, effect, |_, _| true),
        None => effect,
    }
}

fn opposite_too(machine: &Machine, process: usize, partner: Option<usize>) -> Effect {
    let mut effect = effect(machine, process, partner);
    let (giver, things) = given(&effect).unwrap_or_default();
    for thing in things {
        if let Thing::End(number, side) = thing {
            give(&mut effect.config.processes[giver], Thing::End(number, side.other()));
        }
    }
    effect
}

/// The child, where the entry was a FORK.
fn child<'a>(machine: &Machine, effect: &'a mut Effect) -> Option<&'a mut Process> {
    effect.config.processes.get_mut(machine.config.processes.len())
}

fn one_by_one(machine: &Machine, process: usize, partner: Option<usize>) -> Effect {
    let mut effect = effect(machine, process, partner);
    if let Some(child) = child(machine, &mut effect) {
        let slots = &mut child.frames[0].slots;
        let given = slots.map(Value::thing);
        for (s, slot) in slots.iter_mut().enumerate() {
            let gone = given[..s].iter().flatten().any(|thing| giving_empties(*thing, *slot));
            if gone {
                *slot = Value::Empty;
            }
        }
    }
    effect
}

fn one_line(machine: &Machine, process: usize, partner: Option<usize>) -> Effect {
    let mut effect = effect(machine, process, partner);
    effect.lines.dedup();
    effect
}

fn things_counted(machine: &Machine, process: usize, partner: Option<usize>) -> Effect {
    let mut effect = effect(machine, process, partner);
    let things = effect.lines.len().saturating_sub(1) as u16;
    if let Some(line) = effect.lines.first_mut().filter(|line| line.kind == 5) {
        line.c = things;
    }
    effect
}

fn call_gives(machine: &Machine, process: usize, partner: Option<usize>) -> Effect {
    let mut effect = effect(machine, process, partner);
    if let (Some(Op::Call(_)), None) = (machine.op_of(process), effect.fault) {
        let frames = &mut effect.config.processes[process].frames;
        let (called, callers) = frames.split_last_mut().expect("CALL starts a frame");
        let given: Vec<Thing> = called.slots.iter().filter_map(|value| value.thing()).collect();
        callers.iter_mut().for_each(|frame| empty(frame, &given));
    }
    effect
}

fn empty(frame: &mut Frame, given: &[Thing]) {
    for value in frame.slots.iter_mut().chain(&mut frame.pending) {
        if given.iter().any(|thing| giving_empties(*thing, *value)) {
            *value = Value::Empty;
        }
    }
}
