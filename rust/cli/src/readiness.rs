//! How a process stands: whether it is able to move and, where it waits, for
//! whom. It follows from the configuration and from who holds what.

use data::program::op;
use data::{Configuration, Fault, Process, Side, State, Value};

use crate::code::Code;
use crate::holders::Holders;

/// How a process number stands before an entry.
#[derive(Clone, Copy, Debug, PartialEq, Eq)]
pub enum Readiness {
    NotStarted,
    Finished,
    Stopped(Fault),
    /// At SEND or RECV, for another process that runs.
    Waits(Offer),
    /// At SEND or RECV, with nobody left to meet: able to move, to be stopped by
    /// fault 33.
    Gone(Offer),
    /// Able to step, to meet or to be stopped by another fault.
    Moves,
}

impl Readiness {
    /// Whether an entry that names it moves it.
    pub fn is_able(self) -> bool {
        matches!(self, Readiness::Gone(_) | Readiness::Moves)
    }
}

/// What a process at SEND or RECV offers.
#[derive(Clone, Copy, Debug, PartialEq, Eq)]
pub struct Offer {
    pub sends: bool,
    pub channel: u16,
    pub side: Side,
}

impl Offer {
    /// The offer that it meets.
    fn opposite(self) -> Offer {
        Offer { sends: !self.sends, channel: self.channel, side: self.side.other() }
    }
}

/// How a process number stands, with the holders by the lines so far.
pub fn readiness(code: &Code, configuration: &Configuration, holders: &Holders, number: usize) -> Readiness {
    let Some(process) = configuration.processes.get(number) else {
        return Readiness::NotStarted;
    };
    match (process.state, offer(code, process)) {
        (State::Finished, _) => Readiness::Finished,
        (State::Stopped(fault), _) => Readiness::Stopped(fault),
        (State::Running, None) => Readiness::Moves,
        (State::Running, Some(offer)) if is_gone(configuration, holders, number, offer) => Readiness::Gone(offer),
        (State::Running, Some(offer)) if is_met(code, configuration, number, offer) => Readiness::Moves,
        (State::Running, Some(offer)) => Readiness::Waits(offer),
    }
}

/// The holder of the end opposite to an offer's.
pub fn partner(holders: &Holders, offer: Offer) -> Option<usize> {
    holders.ends.get(&(offer.channel, offer.side.other())).map(|holder| usize::from(*holder))
}

/// Whether whoever holds the opposite end is the process itself, has finished or
/// has stopped.
fn is_gone(configuration: &Configuration, holders: &Holders, number: usize, offer: Offer) -> bool {
    let Some(holder) = partner(holders, offer) else {
        return false;
    };
    holder == number || configuration.processes.get(holder).is_some_and(|process| !process.runs())
}

fn is_met(code: &Code, configuration: &Configuration, number: usize, wanted: Offer) -> bool {
    let others = configuration.processes.iter().enumerate().filter(|(other, _)| *other != number);
    let mut offers = others.filter_map(|(_, other)| offer(code, other));
    offers.any(|other| other == wanted.opposite())
}

/// What a process offers that runs and stands at SEND or RECV with all its
/// operands.
fn offer(code: &Code, process: &Process) -> Option<Offer> {
    stands_with(code, process).filter(|_| process.runs())
}

/// What a process at SEND or RECV with all its operands offers or, having been
/// stopped there, has offered.
pub fn stands_with(code: &Code, process: &Process) -> Option<Offer> {
    let frame = process.top()?;
    let (number, _) = code.instruction(frame.place)?;
    let operands = match (number, frame.pending.as_slice()) {
        (op::SEND, [.., end, value]) => [*end, *value],
        (op::RECV, [.., end]) => [*end, *end],
        _ => return None,
    };
    match operands {
        [Value::End(channel, side), value] if value != Value::Empty => {
            Some(Offer { sends: number == op::SEND, channel, side })
        }
        _ => None,
    }
}
