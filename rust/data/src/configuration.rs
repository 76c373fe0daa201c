//! The configuration: "each process's state, each frame's method, place,
//! slots and pending values, the counts of things made".

use std::fmt;

use crate::fault::Fault;
use crate::types::Side;

/// Slots of a frame.
pub const SLOTS: usize = 16;

/// Paper 7: "the work store grows to 8,256 words and question 8 says so". The
/// configuration takes so many, the holders the last 64 of them.
pub const WORK_WORDS: usize = 8_256;

/// The most qubits and channels of a run.
pub const QUBITS: usize = 32;
pub const CHANNELS: usize = 16;

/// What a slot or a pending value holds. "a reference says which it is:
/// quantum, channel or channel end, and one never stands for another"
#[derive(Clone, Copy, Debug, PartialEq, Eq, Hash)]
pub enum Value {
    Empty,
    Int(i32),
    Bool(bool),
    Qubit(u16),
    Channel(u16),
    /// An end, by its channel and its side.
    End(u16, Side),
}

impl Value {
    /// The thing that the value refers to; ints and booleans refer to none.
    pub fn thing(self) -> Option<Thing> {
        match self {
            Value::Empty | Value::Int(_) | Value::Bool(_) => None,
            Value::Qubit(number) => Some(Thing::Qubit(number)),
            Value::Channel(number) => Some(Thing::Channel(number)),
            Value::End(number, side) => Some(Thing::End(number, side)),
        }
    }
}

impl fmt::Display for Value {
    fn fmt(&self, f: &mut fmt::Formatter) -> fmt::Result {
        match (self, self.thing()) {
            (_, Some(thing)) => thing.fmt(f),
            (Value::Int(value), _) => value.fmt(f),
            (Value::Bool(value), _) => value.fmt(f),
            _ => f.write_str("empty"),
        }
    }
}

/// What can be held and given.
#[derive(Clone, Copy, Debug, PartialEq, Eq, PartialOrd, Ord, Hash)]
pub enum Thing {
    Qubit(u16),
    Channel(u16),
    /// An end, by its channel and its side.
    End(u16, Side),
}

impl Thing {
    /// Column b of a kind 6 line: "3 qubit, 4 channel, 5 end 0, 6 end 1".
    pub fn code(self) -> u16 {
        match self {
            Thing::Qubit(_) => 3,
            Thing::Channel(_) => 4,
            Thing::End(_, side) => 5 + side.number(),
        }
    }

    /// Column c of a kind 6 line.
    pub fn number(self) -> u16 {
        match self {
            Thing::Qubit(number) | Thing::Channel(number) | Thing::End(number, _) => number,
        }
    }

    /// The thing of a kind 6 line's columns b and c.
    pub fn read(code: u16, number: u16) -> Option<Thing> {
        match code {
            3 => Some(Thing::Qubit(number)),
            4 => Some(Thing::Channel(number)),
            5 => Some(Thing::End(number, Side::Zero)),
            6 => Some(Thing::End(number, Side::One)),
            _ => None,
        }
    }
}

impl fmt::Display for Thing {
    fn fmt(&self, f: &mut fmt::Formatter) -> fmt::Result {
        match self {
            Thing::Qubit(number) => write!(f, "qubit {number}"),
            Thing::Channel(number) => write!(f, "channel {number}"),
            Thing::End(number, side) => write!(f, "end {side} of channel {number}"),
        }
    }
}

/// A frame. Its place counts instructions over the table; a caller's stands
/// after its CALL. Pending values are the lowest first.
#[derive(Clone, Debug, PartialEq, Eq)]
pub struct Frame {
    pub method: usize,
    pub place: usize,
    pub slots: [Value; SLOTS],
    pub pending: Vec<Value>,
}

impl Frame {
    /// All its slots and pending values.
    pub fn values(&self) -> impl Iterator<Item = Value> + '_ {
        self.slots.iter().chain(&self.pending).copied()
    }

    /// The same, to be changed.
    pub fn values_mut(&mut self) -> impl Iterator<Item = &mut Value> + '_ {
        self.slots.iter_mut().chain(&mut self.pending)
    }
}

/// Whether a process goes on. Waiting is no state: it follows from the
/// places and operands of all processes.
#[derive(Clone, Copy, Debug, PartialEq, Eq)]
pub enum State {
    Running,
    Finished,
    Stopped(Fault),
}

/// A process: its state and its frames, the root first, the top last. A
/// finished one has no frames, a stopped one keeps them.
#[derive(Clone, Debug, PartialEq, Eq)]
pub struct Process {
    pub state: State,
    pub frames: Vec<Frame>,
}

impl Process {
    /// Whether it has neither finished nor stopped.
    pub fn runs(&self) -> bool {
        self.state == State::Running
    }

    /// The frame at work, where there is one.
    pub fn top(&self) -> Option<&Frame> {
        self.frames.last()
    }

    /// All slots and pending values of all frames.
    pub fn values(&self) -> impl Iterator<Item = Value> + '_ {
        self.frames.iter().flat_map(Frame::values)
    }
}

/// Paper 7: "Store the holder of all 32 qubits and 32 ends in the
/// configuration". Nobody holds what is not yet made.
#[derive(Clone, Debug, Default, PartialEq, Eq)]
pub struct Holders {
    pub qubits: [Option<u16>; QUBITS],
    /// By channel and side.
    pub ends: [[Option<u16>; 2]; CHANNELS],
}

impl Holders {
    /// The stored holder of a qubit or an end; a channel has none beside its
    /// ends'.
    pub fn of(&self, thing: Thing) -> Option<u16> {
        match thing {
            Thing::Qubit(number) => *self.qubits.get(usize::from(number))?,
            Thing::Channel(_) => None,
            Thing::End(number, side) => self.ends.get(usize::from(number))?[usize::from(side.number())],
        }
    }

    /// All qubits and ends that can be made, in the order in which they are
    /// stored.
    pub fn things() -> impl Iterator<Item = Thing> {
        let qubits = (0u16..).take(QUBITS).map(Thing::Qubit);
        let ends = (0u16..).take(CHANNELS).flat_map(|channel| Side::ALL.map(|side| Thing::End(channel, side)));
        qubits.chain(ends)
    }
}

/// All processes made, how many qubits and channels were made, and who holds
/// them. The number of processes made is their count here: none ever goes away.
#[derive(Clone, Debug, PartialEq, Eq)]
pub struct Configuration {
    pub processes: Vec<Process>,
    pub qubits: u16,
    pub channels: u16,
    pub holders: Holders,
}
