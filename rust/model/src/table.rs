//! "Program table": sixteen-bit words, numbered from 0.

use data::{CarriedType, Gate, Side, Type, SLOTS};

/// "Word 0: methods M, 1 to 32."
pub const MOST_METHODS: usize = 32;
/// "Word 1: instructions N, 1 to 4096."
pub const MOST_INSTRUCTIONS: usize = 4096;
/// "parameter count P (0 to 8)"
pub const MOST_PARAMETERS: usize = 8;
/// "M rows of 18 words"
pub const ROW_WORDS: usize = 18;

/// Words of any length, read totally: a place beyond the last reads as 0.
#[derive(Clone, Copy, Debug)]
pub struct Words<'a>(pub &'a [u16]);

impl Words<'_> {
    /// The word at a place.
    pub fn at(self, place: usize) -> u16 {
        self.0.get(place).copied().unwrap_or(0)
    }

    /// How many words there are.
    pub fn count(self) -> usize {
        self.0.len()
    }
}

/// "the length exactly 2 + 20M + 2N words"
pub fn table_words(methods: usize, instructions: usize) -> usize {
    2 + 20 * methods + 2 * instructions
}

/// Where a method's pair (offset, length) starts.
pub fn pair_place(method: usize) -> usize {
    2 + 2 * method
}

/// Where a method's row starts, in a table of so many methods.
pub fn row_place(methods: usize, method: usize) -> usize {
    2 + 2 * methods + ROW_WORDS * method
}

/// Where an instruction starts, counted over the table.
pub fn instruction_place(methods: usize, instruction: usize) -> usize {
    table_words(methods, instruction)
}

/// The table of ops, each with its argument.
#[derive(Clone, Copy, Debug, PartialEq, Eq)]
pub enum Op {
    Int(i16),
    Bool(bool),
    Get(usize),
    Put(usize),
    Drop,
    Clear(usize),
    NewQubit,
    NewChannel(CarriedType),
    End(Side),
    Gate(Gate),
    Measure,
    Call(usize),
    Return,
    Fork(usize),
    Send,
    Receive,
    Jump(usize),
    JumpFalse(usize),
    Add,
    Sub,
    Equal,
    Less,
    Not,
}

impl Op {
    /// Reads an instruction: the op is listed and its argument in the range
    /// that holds in every program. Whether a slot is used, a method there
    /// and a target inside is question 4's to ask.
    pub fn read(op: u16, argument: u16) -> Option<Op> {
        let place = usize::from(argument);
        match op {
            1 => Some(Op::Int(i16::from_le_bytes(argument.to_le_bytes()))),
            2 => read_bool(argument).map(Op::Bool),
            3 => Some(Op::Get(place)),
            4 => Some(Op::Put(place)),
            6 => Some(Op::Clear(place)),
            8 => CarriedType::read(argument).map(Op::NewChannel),
            9 => Side::read(argument).map(Op::End),
            10 => Gate::read(argument).map(Op::Gate),
            12 => Some(Op::Call(place)),
            14 => Some(Op::Fork(place)),
            17 => Some(Op::Jump(place)),
            18 => Some(Op::JumpFalse(place)),
            _ if argument == 0 => Op::read_plain(op),
            _ => None,
        }
    }

    /// The ops for which the table lists the argument 0 and nothing else.
    fn read_plain(op: u16) -> Option<Op> {
        match op {
            5 => Some(Op::Drop),
            7 => Some(Op::NewQubit),
            11 => Some(Op::Measure),
            13 => Some(Op::Return),
            15 => Some(Op::Send),
            16 => Some(Op::Receive),
            19 => Some(Op::Add),
            20 => Some(Op::Sub),
            21 => Some(Op::Equal),
            22 => Some(Op::Less),
            23 => Some(Op::Not),
            _ => None,
        }
    }

    /// 01's number of the op.
    pub fn number(self) -> u16 {
        match self {
            Op::Int(_) => 1,
            Op::Bool(_) => 2,
            Op::Get(_) => 3,
            Op::Put(_) => 4,
            Op::Drop => 5,
            Op::Clear(_) => 6,
            Op::NewQubit => 7,
            Op::NewChannel(_) => 8,
            Op::End(_) => 9,
            Op::Gate(_) => 10,
            Op::Measure => 11,
            Op::Call(_) => 12,
            Op::Return => 13,
            Op::Fork(_) => 14,
            Op::Send => 15,
            Op::Receive => 16,
            Op::Jump(_) => 17,
            Op::JumpFalse(_) => 18,
            Op::Add => 19,
            Op::Sub => 20,
            Op::Equal => 21,
            Op::Less => 22,
            Op::Not => 23,
        }
    }

    /// The slot that the op names.
    pub fn slot(self) -> Option<usize> {
        match self {
            Op::Get(slot) | Op::Put(slot) | Op::Clear(slot) => Some(slot),
            _ => None,
        }
    }

    /// The method that the op names.
    pub fn method(self) -> Option<usize> {
        match self {
            Op::Call(method) | Op::Fork(method) => Some(method),
            _ => None,
        }
    }

    /// The instruction that the op may jump to, "from the method's start".
    pub fn target(self) -> Option<usize> {
        match self {
            Op::Jump(target) | Op::JumpFalse(target) => Some(target),
            _ => None,
        }
    }
}

fn read_bool(word: u16) -> Option<bool> {
    match word {
        0 => Some(false),
        1 => Some(true),
        _ => None,
    }
}

/// A method's row: "return type, parameter count P, 16 slot types".
#[derive(Clone, Debug, PartialEq, Eq)]
pub struct Row {
    pub return_type: Type,
    pub parameters: usize,
    pub slots: [Type; SLOTS],
}

impl Row {
    /// The parameters' types: "parameters first".
    pub fn parameter_types(&self) -> &[Type] {
        &self.slots[..self.parameters]
    }
}

/// A method: its row and its code, with the code's offset in the table.
#[derive(Clone, Debug, PartialEq, Eq)]
pub struct Method {
    pub offset: usize,
    pub row: Row,
    pub code: Vec<Op>,
}

/// A program table that has been read.
#[derive(Clone, Debug, PartialEq, Eq)]
pub struct Program {
    pub methods: Vec<Method>,
}

impl Program {
    /// The instruction at a place of a method, counted over the table.
    ///
    /// # Panics
    /// At a place outside the method.
    pub fn op(&self, method: usize, place: usize) -> Op {
        let method = &self.methods[method];
        method.code[place - method.offset]
    }
}
