//! "Trace lines: six 16-bit numbers: entry (from 0), process, kind, a, b, c;
//! unused ones 65535."

use std::fmt;

use crate::configuration::Thing;
use crate::fault::Fault;
use crate::types::{Gate, Side};

/// The number in an unused column, and the look-up's answer for nobody.
pub const UNUSED: u16 = 65_535;
/// "Six words make a line".
pub const LINE_WORDS: usize = 6;
/// Paper 3: "Outcome byte 2 is now allowed and means no click". It is the
/// highest.
pub const NO_CLICK: u8 = 2;

/// A line as its six numbers, right or wrong. It lies in memory as these six
/// words, so that lines one after the other are the words of a trace.
#[derive(Clone, Copy, Debug, Default, PartialEq, Eq, Hash)]
#[repr(C)]
pub struct Line {
    pub entry: u16,
    pub process: u16,
    pub kind: u16,
    pub a: u16,
    pub b: u16,
    pub c: u16,
}

impl Line {
    /// The line's words in their order.
    pub fn words(self) -> [u16; LINE_WORDS] {
        [self.entry, self.process, self.kind, self.a, self.b, self.c]
    }

    /// The line that six words make.
    pub fn from_words(words: [u16; LINE_WORDS]) -> Line {
        let [entry, process, kind, a, b, c] = words;
        Line { entry, process, kind, a, b, c }
    }

    /// What the line says; nothing where its numbers are not those of a line
    /// that a run writes.
    pub fn event(self) -> Option<Event> {
        let event = Event::read(self)?;
        (event.line(self.entry, self.process) == self).then_some(event)
    }

    /// Columns a, b and c, where the line's kind uses them; of a gate's line c
    /// is used where the gate takes two qubits.
    pub fn columns(self) -> [Option<u16>; 3] {
        let used = match self.kind {
            1 | 2 | 10 => 1,
            3 if Gate::read(self.a).is_some_and(Gate::takes_two) => 3,
            3 | 4 | 8 => 2,
            5..=7 => 3,
            _ => 0,
        };
        let columns = [self.a, self.b, self.c];
        [0, 1, 2].map(|column| (column < used).then_some(columns[column]))
    }
}

/// The six columns as the printing program prints them, unused ones as "-".
impl fmt::Display for Line {
    fn fmt(&self, f: &mut fmt::Formatter) -> fmt::Result {
        let [a, b, c] = self.columns().map(|column| column.map_or("-".to_string(), |number| number.to_string()));
        f.pad(&format!("{} {} {} {a} {b} {c}", self.entry, self.process, self.kind))
    }
}

/// What a line says: one case for each of the ten kinds. The process is the
/// line's own.
#[derive(Clone, Copy, Debug, PartialEq, Eq)]
pub enum Event {
    QubitMade {
        qubit: u16,
    },
    ChannelMade {
        channel: u16,
    },
    /// Of two qubits the first "is the deeper and CX's control".
    Gate {
        gate: Gate,
        qubit: u16,
        second: Option<u16>,
    },
    /// The outcome is 0, 1 or [`NO_CLICK`].
    Measured {
        qubit: u16,
        outcome: u8,
    },
    Forked {
        child: u16,
        method: u16,
        arguments: u16,
    },
    Gave {
        to: u16,
        thing: Thing,
    },
    /// The process is the sender, the side its own.
    Met {
        receiver: u16,
        channel: u16,
        side: Side,
    },
    /// An int, or a boolean as 0 or 1: lines do not tell them apart.
    Passed {
        value: i32,
    },
    Finished,
    Stopped {
        fault: Fault,
    },
}

impl Event {
    /// Kind and columns a, b, c.
    fn columns(self) -> [u16; 4] {
        match self {
            Event::QubitMade { qubit } => [1, qubit, UNUSED, UNUSED],
            Event::ChannelMade { channel } => [2, channel, UNUSED, UNUSED],
            Event::Gate { gate, qubit, second } => [3, gate.number(), qubit, second.unwrap_or(UNUSED)],
            Event::Measured { qubit, outcome } => [4, qubit, u16::from(outcome), UNUSED],
            Event::Forked { child, method, arguments } => [5, child, method, arguments],
            Event::Gave { to, thing } => [6, to, thing.code(), thing.number()],
            Event::Met { receiver, channel, side } => [7, receiver, channel, side.number()],
            Event::Passed { value } => {
                let [b0, b1, b2, b3] = value.to_le_bytes();
                [8, u16::from_le_bytes([b0, b1]), u16::from_le_bytes([b2, b3]), UNUSED]
            }
            Event::Finished => [9, UNUSED, UNUSED, UNUSED],
            Event::Stopped { fault } => [10, fault.number(), UNUSED, UNUSED],
        }
    }

    /// The event that a line's used columns say.
    fn read(line: Line) -> Option<Event> {
        let Line { kind, a, b, c, .. } = line;
        Some(match kind {
            1 => Event::QubitMade { qubit: a },
            2 => Event::ChannelMade { channel: a },
            3 => {
                let gate = Gate::read(a)?;
                Event::Gate { gate, qubit: b, second: gate.takes_two().then_some(c) }
            }
            4 => Event::Measured { qubit: a, outcome: u8::try_from(b).ok().filter(|outcome| *outcome <= NO_CLICK)? },
            5 => Event::Forked { child: a, method: b, arguments: c },
            6 => Event::Gave { to: a, thing: Thing::read(b, c)? },
            7 => Event::Met { receiver: a, channel: b, side: Side::read(c)? },
            8 => {
                let ([b0, b1], [b2, b3]) = (a.to_le_bytes(), b.to_le_bytes());
                Event::Passed { value: i32::from_le_bytes([b0, b1, b2, b3]) }
            }
            9 => Event::Finished,
            10 => Event::Stopped { fault: Fault::read(a)? },
            _ => return None,
        })
    }

    /// A short name for each kind.
    pub fn name(self) -> &'static str {
        match self {
            Event::QubitMade { .. } => "qubit made",
            Event::ChannelMade { .. } => "channel made",
            Event::Gate { .. } => "gate",
            Event::Measured { .. } => "measured",
            Event::Forked { .. } => "fork",
            Event::Gave { .. } => "gave",
            Event::Met { .. } => "met",
            Event::Passed { .. } => "value passed",
            Event::Finished => "finished",
            Event::Stopped { .. } => "stopped",
        }
    }

    /// The line of this event, at an entry and under a process.
    pub fn line(self, entry: u16, process: u16) -> Line {
        let [kind, a, b, c] = self.columns();
        Line { entry, process, kind, a, b, c }
    }
}
