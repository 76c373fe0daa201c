//! Faults: a further one is one more case, one more entry of [`Fault::ALL`] and
//! its words.

use std::fmt;

use crate::numbered;

/// "Faults stop the process", by the papers' number.
#[derive(Clone, Copy, Debug, PartialEq, Eq, PartialOrd, Ord, Hash)]
pub enum Fault {
    /// "the slot read, or a value taken, stored, dropped or returned, is empty"
    Empty = 20,
    /// "channel beyond 16"
    Channels = 21,
    /// "qubit beyond 32"
    Qubits = 22,
    /// "process beyond 8"
    Processes = 23,
    /// "no outcome left"
    Outcomes = 24,
    /// "frame beyond 8"
    Frames = 25,
    /// "int out of range"
    IntRange = 26,
    /// "a two-qubit gate on one qubit"
    OneQubit = 27,
    /// Paper 6: "a process stands at SEND or RECV with its operands present and
    /// the opposite end's holder is itself, has finished or has stopped"
    Gone = 33,
}

impl Fault {
    /// All of them, by their numbers.
    pub const ALL: [Fault; 9] = [
        Fault::Empty,
        Fault::Channels,
        Fault::Qubits,
        Fault::Processes,
        Fault::Outcomes,
        Fault::Frames,
        Fault::IntRange,
        Fault::OneQubit,
        Fault::Gone,
    ];

    /// The papers' number of it.
    pub fn number(self) -> u16 {
        self as u16
    }

    /// The fault of a number.
    pub fn read(number: u16) -> Option<Fault> {
        numbered(&Fault::ALL, Fault::number, number)
    }
}

/// Why the process stopped.
impl fmt::Display for Fault {
    fn fmt(&self, f: &mut fmt::Formatter) -> fmt::Result {
        f.write_str(match self {
            Fault::Empty => "the slot read, or a value taken, stored, dropped or returned, is empty",
            Fault::Channels => "a channel beyond 16 would be made",
            Fault::Qubits => "a qubit beyond 32 would be made",
            Fault::Processes => "a process beyond 8 would be made",
            Fault::Outcomes => "no outcome is left",
            Fault::Frames => "a frame beyond 8 would be started",
            Fault::IntRange => "an int is out of range",
            Fault::OneQubit => "a two-qubit gate falls on one qubit",
            Fault::Gone => "the opposite end is held by the process itself, or by one that has finished or stopped",
        })
    }
}
