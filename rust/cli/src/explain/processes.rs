//! Each process as it stands: its state, whom it waits for, its frames, and why
//! what is empty is empty.

use data::{Configuration, Fault, Frame, Process, State, Value};

use crate::code::Code;
use crate::empty_cells::{Cell, EmptyCells};
use crate::explain::RunContext;
use crate::holders::Holders;
use crate::readiness::{partner, readiness, stands_with, Offer, Readiness};

/// The processes at the end of a run.
pub fn processes(context: RunContext, emptied: Option<&EmptyCells>) -> String {
    let configuration = &context.run.configuration;
    let holders = Holders::by(&context.run.lines);
    let mut text = String::new();
    for (number, process) in configuration.processes.iter().enumerate() {
        let how = how(context.code, configuration, &holders, number);
        let why = match process.state {
            State::Stopped(fault) => format!(": {fault}"),
            _ => String::new(),
        };
        text += &format!("process {number} {how}{why}\n");
        if let (State::Stopped(Fault::Gone), Some(offer)) = (process.state, stands_with(context.code, process)) {
            text += &format!("    {}\n", gone(configuration, &holders, number, offer));
        }
        for (f, frame) in process.frames.iter().enumerate() {
            // A caller's place is after its CALL.
            let verb = if f + 1 == process.frames.len() { "stands at" } else { "goes on at" };
            let site = context.code.site(frame.place).map(|site| site.to_string()).unwrap_or_default();
            text += &format!("    frame {f} {verb} {site}\n");
            text += &values(context.code, frame, |cell| emptied?.why(number, f, cell).map(|why| why.to_string()));
        }
    }
    if emptied.is_none() {
        text += "(why slots are empty is not worked out for so many entries, unless with --all)\n";
    }
    text
}

/// How a process stands.
pub fn how(code: &Code, configuration: &Configuration, holders: &Holders, number: usize) -> String {
    match readiness(code, configuration, holders, number) {
        Readiness::NotStarted => "has not started".to_string(),
        Readiness::Finished => "has finished".to_string(),
        Readiness::Stopped(fault) => format!("was stopped by fault {}", fault.number()),
        Readiness::Moves => "is able to move".to_string(),
        Readiness::Gone(offer) => {
            let why = gone(configuration, holders, number, offer);
            format!("is able to move, to be stopped by fault {}: {why}", Fault::Gone.number())
        }
        Readiness::Waits(offer) => format!("waits {}", waits(code, configuration, holders, offer)),
    }
}

/// Who has gone, of a process that fault 33 stops or has stopped.
fn gone(configuration: &Configuration, holders: &Holders, number: usize, offer: Offer) -> String {
    let Offer { channel, side, .. } = offer;
    let held = format!("end {} of channel {channel} is held by", side.other());
    match partner(holders, offer) {
        Some(holder) if holder != number => {
            let process = configuration.processes.get(holder);
            format!("{held} process {holder}, which {}", process.map_or("has not started", over))
        }
        _ => format!("{held} itself, and none meets itself"),
    }
}

/// How a process is over.
fn over(process: &Process) -> &'static str {
    match process.state {
        State::Finished => "has finished",
        State::Stopped(_) => "was stopped",
        State::Running => "runs",
    }
}

/// For whom a process waits, and what that one does: it holds the opposite end
/// and runs.
fn waits(code: &Code, configuration: &Configuration, holders: &Holders, offer: Offer) -> String {
    let Offer { sends, channel, side } = offer;
    let verb = if sends { "to send" } else { "to receive" };
    let other = side.other();
    let over = format!("{verb} over end {side} of channel {channel}");
    match partner(holders, offer) {
        None => format!("{over}: nobody holds end {other}"),
        Some(holder) => {
            let does = does(code, configuration, holders, holder);
            format!("{over}, for process {holder}, which holds end {other} and {does}")
        }
    }
}

/// What a process does that another one waits for.
fn does(code: &Code, configuration: &Configuration, holders: &Holders, number: usize) -> String {
    let top = configuration.processes.get(number).and_then(Process::top);
    let site = top.and_then(|frame| code.site(frame.place));
    let site = site.map(|site| site.to_string()).unwrap_or_default();
    match readiness(code, configuration, holders, number) {
        Readiness::Waits(_) => format!("waits too, at {site}"),
        _ => format!("stands at {site}"),
    }
}

/// The values of a frame, and what was emptied in it.
fn values(code: &Code, frame: &Frame, why: impl Fn(Cell) -> Option<String>) -> String {
    let name = |slot| code.slot_name(frame.method, slot);
    let slots = frame.slots.iter().enumerate();
    let held = slots.clone().filter(|(_, value)| **value != Value::Empty);
    let held = held.map(|(slot, value)| format!("{} = {value}", name(slot)));
    let emptied = slots.filter(|(_, value)| **value == Value::Empty);
    let emptied: Vec<String> =
        emptied.filter_map(|(slot, _)| Some(format!("{} ({})", name(slot), why(Cell::Slot(slot))?))).collect();
    let pending = frame.pending.iter().enumerate().map(|(index, value)| match why(Cell::Pending(index)) {
        Some(why) if *value == Value::Empty => format!("empty ({why})"),
        _ => value.to_string(),
    });
    let mut text = format!("        slots: {}\n", list_or_none(held.collect()));
    if !emptied.is_empty() {
        text += &format!("        emptied: {}\n", emptied.join(", "));
    }
    text + &format!("        pending: {}\n", list_or_none(pending.collect()))
}

fn list_or_none(items: Vec<String>) -> String {
    match items.is_empty() {
        true => "none".to_string(),
        false => items.join(", "),
    }
}
