//! Paper 6: "A process waits for a partner that has gone, and the whole run
//! reads as stuck. From now on such a process stops."

use data::{Configuration, Line, Side, State, Thing};

use crate::owner::holder;

/// Why nobody is left to meet: "the opposite end's holder is itself, has
/// finished or has stopped".
#[derive(Clone, Copy, Debug, PartialEq, Eq, PartialOrd, Ord)]
pub enum NoPartner {
    Itself,
    Finished,
    Stopped,
}

/// Whether the holder of the opposite end has gone, for a process that stands at
/// SEND or RECV with this end. "The holder is read from the trace": one that runs
/// is there, whether or not it still reaches what it holds.
pub fn gone(config: &Configuration, lines: &[Line], process: usize, channel: u16, side: Side) -> Option<NoPartner> {
    let holder = usize::from(holder(lines, Thing::End(channel, side.other()))?);
    if holder == process {
        return Some(NoPartner::Itself);
    }
    match config.processes.get(holder)?.state {
        State::Running => None,
        State::Finished => Some(NoPartner::Finished),
        State::Stopped(_) => Some(NoPartner::Stopped),
    }
}
