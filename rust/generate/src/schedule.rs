//! Schedules that make processes interleave and meet: the model is driven
//! along, and mostly a process that is able to move is named.

use model::machine::{Machine, Readiness};
use model::table::{Op, Program};

use crate::random::Random;

/// Words of a trace that holds whatever a generated run writes.
pub const AMPLE_TRACE: usize = 6 * 70_000;

/// How the next process is chosen among those able to move.
#[derive(Clone, Copy, Debug)]
enum Choice {
    /// Each as often as the others.
    Even,
    Lowest,
    Highest,
    /// Stay with the last one in so many of a hundred cases.
    Stay(usize),
}

/// A schedule of at most so many bytes, often past the run's end.
pub fn schedule(program: &Program, outcomes: &[u8], most: usize, random: &mut Random) -> Vec<u8> {
    let mut machine = Machine::new(program, outcomes, AMPLE_TRACE);
    let manner = choose_manner(random);
    let stray = random.pick(&[0, 0, 5, 15, 40]);
    let mut bytes = Vec::new();
    while bytes.len() < most {
        let byte = next_byte(&machine, manner, stray, &bytes, random);
        if machine.entry(byte).is_err() {
            break;
        }
        bytes.push(byte);
    }
    let past = random.pick(&[0, 0, 1, 4]);
    bytes.extend((0..past).map(|_| stray_byte(random)));
    bytes.truncate(most);
    bytes
}

fn choose_manner(random: &mut Random) -> Choice {
    match random.below(6) {
        0 => Choice::Lowest,
        1 => Choice::Highest,
        2 => Choice::Stay(60),
        3 => Choice::Stay(90),
        _ => Choice::Even,
    }
}

fn next_byte(machine: &Machine, manner: Choice, stray: usize, before: &[u8], random: &mut Random) -> u8 {
    let able = able_bytes(machine, random);
    if able.is_empty() || random.chance(stray) {
        return waiting_byte(machine, random).unwrap_or_else(|| stray_byte(random));
    }
    match manner {
        Choice::Even => random.pick(&able),
        Choice::Lowest => able[0],
        Choice::Highest => able[able.len() - 1],
        Choice::Stay(percent) => match before.last() {
            Some(last) if able.contains(last) && random.chance(percent) => *last,
            _ => random.pick(&able),
        },
    }
}

/// The processes able to move. Mostly those are left out that would be stopped
/// at SEND or RECV: others are to find them not ready, or to go before them.
fn able_bytes(machine: &Machine, random: &mut Random) -> Vec<u8> {
    let readiness = |byte: &u8| machine.readiness(usize::from(*byte));
    let able: Vec<u8> = (0..8).filter(|byte| readiness(byte).is_able()).collect();
    let not_ready = |byte: &u8| {
        let op = machine.op_of(usize::from(*byte));
        let meets = matches!(op, Some(Op::Send | Op::Receive));
        meets && readiness(byte) == Readiness::Steps
    };
    let others = able.iter().copied().filter(|byte| !not_ready(byte));
    let others: Vec<u8> = others.collect();
    match random.chance(80) {
        true => others,
        false => able,
    }
}

/// Mostly a process that waits, where there is one: it is named in vain.
fn waiting_byte(machine: &Machine, random: &mut Random) -> Option<u8> {
    let waits = |byte: &u8| machine.readiness(usize::from(*byte)) == Readiness::Waits;
    let waiting: Vec<u8> = (0..8).filter(waits).collect();
    let byte = random.pick_any(&waiting)?;
    random.chance(70).then_some(byte)
}

/// Any process number, at times one that no process can have.
fn stray_byte(random: &mut Random) -> u8 {
    match random.below(10) {
        0 => random.byte(),
        1 => random.pick(&[8, 9, 128, 255]),
        _ => random.below(8) as u8,
    }
}
