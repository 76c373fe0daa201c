//! Reach, holders, and the ownership statement over the whole schedule.

use std::collections::BTreeMap;

use data::{Configuration, Gate, Holders, Line, Process, Side, Thing, Value};

/// "Reach: in a slot or pending value of any frame, a stopped process's too;
/// an end also through its channel." A finished process has no frames, so it
/// "reaches nothing".
pub fn reach(process: &Process) -> Vec<Thing> {
    process.values().flat_map(reached_through).collect()
}

fn reached_through(value: Value) -> Vec<Thing> {
    match value.thing() {
        Some(Thing::Channel(number)) => {
            vec![Thing::Channel(number), Thing::End(number, Side::Zero), Thing::End(number, Side::One)]
        }
        Some(thing) => vec![thing],
        None => vec![],
    }
}

/// "Holder, by given lines alone: of the thing's lines of kinds 1, 2 and 6
/// the last decides, by its process for 1 and 2, by its a for 6; ... without
/// such a line, nobody."
pub fn holder(lines: &[Line], thing: Thing) -> Option<u16> {
    let decides = deciding_line(lines, thing)?;
    holder_by_line(&lines[decides], thing)
}

/// The line that decides who holds a thing.
pub fn deciding_line(lines: &[Line], thing: Thing) -> Option<usize> {
    lines.iter().rposition(|line| holder_by_line(line, thing).is_some())
}

/// Paper 7: "Before the first entry and after each, every stored holder equals
/// the one the lines give".
pub fn stored_holders(config: &Configuration, lines: &[Line]) -> Result<(), String> {
    let wrong = Holders::things().find(|thing| config.holders.of(*thing) != holder(lines, *thing));
    match wrong {
        Some(thing) => Err(format!("{thing} is stored as held by {:?}", config.holders.of(thing))),
        None => Ok(()),
    }
}

/// The holder that one line gives a thing, if it is a line of that thing.
fn holder_by_line(line: &Line, thing: Thing) -> Option<u16> {
    match line.kind {
        1 if thing == Thing::Qubit(line.a) => Some(line.process),
        2 if is_of_channel(thing, line.a) => Some(line.process),
        6 if is_given(thing, line.b, line.c) => Some(line.a),
        _ => None,
    }
}

/// "a channel's lines count for both its ends"
fn is_of_channel(thing: Thing, channel: u16) -> bool {
    match thing {
        Thing::Qubit(_) => false,
        Thing::Channel(number) | Thing::End(number, _) => number == channel,
    }
}

/// Whether a kind 6 line with these columns b and c is a line of the thing.
fn is_given(thing: Thing, code: u16, number: u16) -> bool {
    let same = thing.code() == code && thing.number() == number;
    same || (code == 4 && is_of_channel(thing, number))
}

/// The ownership statement after the present entry: what the configuration
/// reaches and what every line says.
pub fn ownership(config: &Configuration, lines: &[Line]) -> Result<(), String> {
    ownership_since(config, lines, 0)
}

/// The same, where the lines before `first_new` were looked at earlier: what
/// is said of a line depends on the lines above it alone.
pub fn ownership_since(config: &Configuration, lines: &[Line], first_new: usize) -> Result<(), String> {
    reach_is_held(config, lines)?;
    (first_new..lines.len()).try_for_each(|index| line_is_held(lines, index))
}

/// Nothing is in reach of two processes, and whatever is reached is held, by
/// the lines, by the process that reaches it.
fn reach_is_held(config: &Configuration, lines: &[Line]) -> Result<(), String> {
    let mut reached_by = BTreeMap::new();
    for (process, number) in config.processes.iter().zip(0u16..) {
        for thing in reach(process) {
            let first = *reached_by.entry(thing).or_insert(number);
            if first != number {
                return Err(format!("{thing:?} in reach of {first} and {number}"));
            }
        }
    }
    let mut reached = reached_by.iter();
    reached.try_for_each(|(thing, number)| is_held(lines, *thing, *number))
}

/// What gates, measurements and meetings use is held by the processes that
/// use it, "by the lines above".
fn line_is_held(lines: &[Line], index: usize) -> Result<(), String> {
    let line = lines[index];
    let above = &lines[..index];
    let used = used_by_line(&line)?;
    let mut used = used.iter();
    let held = used.try_for_each(|(thing, number)| is_held(above, *thing, *number));
    held.map_err(|why| format!("line {index}: {why}"))
}

/// What a line uses, and which process uses it.
fn used_by_line(line: &Line) -> Result<Vec<(Thing, u16)>, String> {
    match line.kind {
        3 => {
            let gate = Gate::read(line.a).ok_or("an unlisted gate")?;
            let mut used = vec![(Thing::Qubit(line.b), line.process)];
            if gate.takes_two() {
                used.push((Thing::Qubit(line.c), line.process));
            }
            Ok(used)
        }
        4 => Ok(vec![(Thing::Qubit(line.a), line.process)]),
        7 => {
            let side = Side::read(line.c).ok_or("a side that is not 0 or 1")?;
            Ok(vec![(Thing::End(line.b, side), line.process), (Thing::End(line.b, side.other()), line.a)])
        }
        _ => Ok(vec![]),
    }
}

fn is_held(lines: &[Line], thing: Thing, number: u16) -> Result<(), String> {
    match holder(lines, thing) {
        Some(holder) if holder == number => Ok(()),
        other => Err(format!("{thing:?} used by {number}, held by {other:?}")),
    }
}
