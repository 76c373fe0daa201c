//! How frames, processes and the configuration start, and what giving a thing
//! away empties. The types themselves are plain data.

use data::{Configuration, Frame, Holders, Process, Side, State, Thing, Value, SLOTS};

use crate::table::Program;

/// "CALL starts a frame with the arguments in its first slots, the others
/// empty", at the method's first instruction.
pub fn start_frame(program: &Program, method: usize, arguments: &[Value]) -> Frame {
    let mut slots = [Value::Empty; SLOTS];
    slots[..arguments.len()].copy_from_slice(arguments);
    Frame { method, place: program.methods[method].offset, slots, pending: Vec::new() }
}

/// A new process with its root frame.
pub fn start_process(program: &Program, method: usize, arguments: &[Value]) -> Process {
    Process { state: State::Running, frames: vec![start_frame(program, method, arguments)] }
}

/// "A run starts with process 0 at main's first instruction, its slots
/// empty, nothing pending, nothing else made".
pub fn start(program: &Program) -> Configuration {
    let processes = vec![start_process(program, 0, &[])];
    Configuration { processes, qubits: 0, channels: 0, holders: Holders::default() }
}

/// Stores who holds a thing that was made or given. "Each channel has two ends,
/// each with one holder": a channel's are both its ends'.
pub fn hold(holders: &mut Holders, thing: Thing, process: u16) {
    match thing {
        Thing::Qubit(number) => holders.qubits[usize::from(number)] = Some(process),
        Thing::Channel(number) => holders.ends[usize::from(number)] = [Some(process); 2],
        Thing::End(number, Side::Zero) => holders.ends[usize::from(number)][0] = Some(process),
        Thing::End(number, Side::One) => holders.ends[usize::from(number)][1] = Some(process),
    }
}

/// Whether giving this thing empties that value in the giver. "Giving an
/// end also empties the channel, not the opposite end. Giving a channel
/// empties channel and both ends."
pub fn giving_empties(thing: Thing, value: Value) -> bool {
    match (thing, value) {
        (Thing::Qubit(given), Value::Qubit(held)) => given == held,
        (Thing::Channel(given), Value::Channel(held) | Value::End(held, _)) => given == held,
        (Thing::End(given, _), Value::Channel(held)) => given == held,
        (Thing::End(given, side), Value::End(held, held_side)) => given == held && side == held_side,
        _ => false,
    }
}

/// "Every slot and every pending value of the giver, in all frames, that
/// holds the thing is emptied." An emptied pending value keeps its position.
pub fn give(giver: &mut Process, thing: Thing) {
    for value in giver.frames.iter_mut().flat_map(Frame::values_mut) {
        if giving_empties(thing, *value) {
            *value = Value::Empty;
        }
    }
}
