//! The final configuration, read back from the work store. The layout is that
//! of `docs/LAYOUT.md`.

use data::{Configuration, Fault, Frame, Holders, Process, Side, State, Thing, Value, QUBITS, UNUSED, WORK_WORDS};

use crate::raw;

/// Words of the counts' part and of each process's.
const PART: usize = 512;
/// Where a process's frame heads start, and the words of one.
const HEADS: usize = 8;
const HEAD: usize = 4;
/// Where a process's values start, and the words of one frame's.
const VALUES: usize = 64;
const FRAME_VALUES: usize = 48;
/// Where the pending values start among them.
const PENDING: usize = 32;
/// Where the holders of the qubits start, and those of the ends.
const QUBIT_HOLDERS: usize = 8_192;
const END_HOLDERS: usize = QUBIT_HOLDERS + QUBITS;
/// The holder's word of a thing that was not made.
const NOT_MADE: u16 = 255;

/// The configuration in a work store that a run has left; nothing where the
/// first [`WORK_WORDS`] words are none, with every unused word 0. Words beyond
/// them do not count.
///
/// ```
/// use lanq::op::{DROP, NEWQ, PUT, RET};
/// use lanq::{decode, run_in, Method, Program, State, Value};
///
/// // Main makes a qubit and puts it into slot 1, which is a qbit.
/// let main = Method {
///     slots: vec![0, 3],
///     code: vec![(NEWQ, 0), (PUT, 1), (DROP, 0), (RET, 0)],
///     ..Method::default()
/// };
/// let program = Program::from_methods(&[main]);
/// let mut work = vec![0; lanq::WORK_WORDS];
/// run_in(program.words(), &[0, 0], &[], &mut [0; 60], &mut work).unwrap();
///
/// let configuration = decode(&work).unwrap();
/// assert_eq!(configuration.qubits, 1);
/// assert_eq!(configuration.holders.qubits[..2], [Some(0), None]);
/// let main = &configuration.processes[0];
/// assert_eq!(main.state, State::Running);
/// assert_eq!(main.frames[0].place, 2);
/// assert_eq!(main.frames[0].slots[1], Value::Qubit(0));
/// assert_eq!(main.frames[0].pending, [Value::Qubit(0)]);
///
/// // A word that must be 0, and too few words.
/// work[3] = 1;
/// assert_eq!(decode(&work), None);
/// assert_eq!(decode(&work[1..]), None);
/// ```
pub fn decode(work: &[u32]) -> Option<Configuration> {
    let words = work.get(..WORK_WORDS)?;
    let made = count(words[0], 1, 8)?;
    let parts = words.chunks_exact(PART).skip(1).take(made);
    let (qubits, channels) = (at_most(words[1], 32)?, at_most(words[2], 16)?);
    let configuration = Configuration {
        processes: parts.map(process).collect::<Option<_>>()?,
        qubits,
        channels,
        holders: holders(words, made, usize::from(qubits), usize::from(channels))?,
    };
    // Written anew it shows every word that nothing above has looked at.
    (encode(&configuration) == words).then_some(configuration)
}

/// A count of things made, at most so many.
fn at_most(word: u32, most: u16) -> Option<u16> {
    u16::try_from(word).ok().filter(|count| *count <= most)
}

fn count(word: u32, least: u32, most: u32) -> Option<usize> {
    (least..=most).contains(&word).then_some(word as usize)
}

/// The holders, of processes that were made; nobody where a thing was not made.
fn holders(words: &[u32], processes: usize, qubits: usize, channels: usize) -> Option<Holders> {
    let holder = |word: u32, is_made: bool| match is_made {
        true => at_most(word, 7).filter(|number| usize::from(*number) < processes).map(Some),
        false => (word == u32::from(NOT_MADE)).then_some(None),
    };
    let mut holders = Holders::default();
    for (number, stored) in holders.qubits.iter_mut().enumerate() {
        *stored = holder(words[QUBIT_HOLDERS + number], number < qubits)?;
    }
    for (number, [end_0, end_1]) in holders.ends.iter_mut().enumerate() {
        let at = END_HOLDERS + 2 * number;
        *end_0 = holder(words[at], number < channels)?;
        *end_1 = holder(words[at + 1], number < channels)?;
    }
    Some(holders)
}

/// The process that holds a qubit or an end after a run, read from the work store
/// that the run has left. Nobody where the thing was not made, where there is no
/// such thing, or where the store is too short. It takes the same time for every
/// thing, however long the run was; a channel is asked for by its ends.
///
/// ```
/// use lanq::op::{DROP, END, FORK, NEWC, NEWQ, PUT, RET};
/// use lanq::{run_in, stored_holder, Method, Program, Side, Thing};
///
/// // Main makes a qubit and a channel, and forks a child with end 1.
/// let code = vec![(NEWQ, 0), (DROP, 0), (NEWC, 3), (END, 1), (FORK, 1), (RET, 0)];
/// let main = Method { code, ..Method::default() };
/// let child = Method { parameters: 1, slots: vec![35], code: vec![(RET, 0)], ..Method::default() };
/// let program = Program::from_methods(&[main, child]);
/// let mut work = vec![0; lanq::WORK_WORDS];
/// run_in(program.words(), &[0, 0, 0, 0, 0], &[], &mut [0; 60], &mut work).unwrap();
///
/// assert_eq!(stored_holder(&work, Thing::Qubit(0)), Some(0));
/// assert_eq!(stored_holder(&work, Thing::End(0, Side::Zero)), Some(0));
/// assert_eq!(stored_holder(&work, Thing::End(0, Side::One)), Some(1));
/// // Not made, no such thing, and too few words.
/// assert_eq!(stored_holder(&work, Thing::Qubit(1)), None);
/// assert_eq!(stored_holder(&work, Thing::Qubit(32)), None);
/// assert_eq!(stored_holder(&[], Thing::Qubit(0)), None);
/// ```
pub fn stored_holder(work: &[u32], thing: Thing) -> Option<u16> {
    // SAFETY: the pointer is good for its length as long as the slice is
    // borrowed, which is longer than the call. The function only reads it.
    let holder =
        unsafe { raw::lanq_stored_holder(work.as_ptr(), work.len(), thing.code().into(), thing.number().into()) };
    (holder != NOT_MADE && holder != UNUSED).then_some(holder)
}

fn process(part: &[u32]) -> Option<Process> {
    let (state, least, most) = match (part[0], part[1]) {
        (1, 0) => (State::Running, 1, 8),
        (2, 0) => (State::Finished, 0, 0),
        (3, fault) => (State::Stopped(Fault::read(u16::try_from(fault).ok()?)?), 1, 8),
        _ => return None,
    };
    let frames = count(part[2], least, most)?;
    let heads = part[HEADS..].chunks_exact(HEAD);
    let values = part[VALUES..].chunks_exact(FRAME_VALUES);
    let frames = heads.zip(values).take(frames).map(|(head, values)| frame(head, values));
    Some(Process { state, frames: frames.collect::<Option<_>>()? })
}

fn frame(head: &[u32], values: &[u32]) -> Option<Frame> {
    let (slots, pending) = values.split_at(PENDING);
    let slots: Vec<Value> = slots.chunks_exact(2).map(value).collect::<Option<_>>()?;
    let pending = pending.chunks_exact(2).take(count(head[2], 0, 8)?).map(value);
    Some(Frame {
        method: head[0] as usize,
        place: head[1] as usize,
        slots: slots.try_into().ok()?,
        pending: pending.collect::<Option<_>>()?,
    })
}

fn value(words: &[u32]) -> Option<Value> {
    Some(match (words[0], words[1]) {
        (0, 0) => Value::Empty,
        (1, word) => Value::Int(word as i32),
        (2, word @ 0..=1) => Value::Bool(word == 1),
        (3, number) => Value::Qubit(at_most(number, 31)?),
        (4, number) => Value::Channel(at_most(number, 15)?),
        (5, number) => Value::End(at_most(number, 15)?, Side::Zero),
        (6, number) => Value::End(at_most(number, 15)?, Side::One),
        _ => return None,
    })
}

/// The words of a configuration that was read from words.
fn encode(configuration: &Configuration) -> Vec<u32> {
    let mut words = vec![0; WORK_WORDS];
    words[0] = configuration.processes.len() as u32;
    words[1] = u32::from(configuration.qubits);
    words[2] = u32::from(configuration.channels);
    for (process, part) in configuration.processes.iter().zip(words.chunks_exact_mut(PART).skip(1)) {
        write_process(process, part);
    }
    let Holders { qubits, ends } = &configuration.holders;
    for (holder, word) in qubits.iter().chain(ends.iter().flatten()).zip(&mut words[QUBIT_HOLDERS..]) {
        *word = holder.unwrap_or(NOT_MADE).into();
    }
    words
}

fn write_process(process: &Process, part: &mut [u32]) {
    let (status, fault) = match process.state {
        State::Running => (1, 0),
        State::Finished => (2, 0),
        State::Stopped(fault) => (3, u32::from(fault.number())),
    };
    part[..3].copy_from_slice(&[status, fault, process.frames.len() as u32]);
    for (f, frame) in process.frames.iter().enumerate() {
        let head = [frame.method as u32, frame.place as u32, frame.pending.len() as u32];
        part[HEADS + HEAD * f..][..3].copy_from_slice(&head);
        let values = &mut part[VALUES + FRAME_VALUES * f..][..FRAME_VALUES];
        for (value, two) in frame.values().zip(values.chunks_exact_mut(2)) {
            two.copy_from_slice(&value_words(value));
        }
    }
}

/// Tag and number.
fn value_words(value: Value) -> [u32; 2] {
    match value {
        Value::Empty => [0, 0],
        Value::Int(value) => [1, value as u32],
        Value::Bool(value) => [2, u32::from(value)],
        Value::Qubit(number) => [3, u32::from(number)],
        Value::Channel(number) => [4, u32::from(number)],
        Value::End(number, side) => [5 + u32::from(side.number()), u32::from(number)],
    }
}
