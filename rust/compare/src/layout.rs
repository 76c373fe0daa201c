//! A configuration as words by docs/LAYOUT.md, written here a second time: the
//! binding only reads it.

use data::{Configuration, Process, State, Value, WORK_WORDS};

/// Puts words into a store at a place.
fn put(words: &mut [u32], at: usize, new: &[u32]) {
    words[at..at + new.len()].copy_from_slice(new);
}

/// The first words of the work store, unused ones 0.
pub fn words(config: &Configuration) -> Vec<u32> {
    let mut words = vec![0; WORK_WORDS];
    let counts = [config.processes.len() as u32, u32::from(config.qubits), u32::from(config.channels)];
    put(&mut words, 0, &counts);
    for (n, process) in config.processes.iter().enumerate() {
        put_process(&mut words, 512 * (n + 1), process);
    }
    let stored = |holder: Option<u16>| holder.map_or(255, u32::from);
    for (q, holder) in config.holders.qubits.iter().enumerate() {
        words[8_192 + q] = stored(*holder);
    }
    for (c, [end_0, end_1]) in config.holders.ends.iter().enumerate() {
        put(&mut words, 8_224 + 2 * c, &[stored(*end_0), stored(*end_1)]);
    }
    words
}

fn put_process(words: &mut [u32], part: usize, process: &Process) {
    let (status, fault) = match process.state {
        State::Running => (1, 0),
        State::Finished => (2, 0),
        State::Stopped(fault) => (3, u32::from(fault.number())),
    };
    put(words, part, &[status, fault, process.frames.len() as u32]);
    for (f, frame) in process.frames.iter().enumerate() {
        let head = [frame.method as u32, frame.place as u32, frame.pending.len() as u32];
        put(words, part + 8 + 4 * f, &head);
        let values = part + 64 + 48 * f;
        for (s, value) in frame.slots.iter().enumerate() {
            put(words, values + 2 * s, &two_words(*value));
        }
        for (i, value) in frame.pending.iter().enumerate() {
            put(words, values + 32 + 2 * i, &two_words(*value));
        }
    }
}

fn two_words(value: Value) -> [u32; 2] {
    match value {
        Value::Empty => [0, 0],
        Value::Int(value) => [1, u32::from_le_bytes(value.to_le_bytes())],
        Value::Bool(value) => [2, u32::from(value)],
        Value::Qubit(number) => [3, u32::from(number)],
        Value::Channel(number) => [4, u32::from(number)],
        Value::End(number, side) => [5 + u32::from(side.number()), u32::from(number)],
    }
}
