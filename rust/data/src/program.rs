//! Program tables as methods. Types, ops and arguments stay plain words, right
//! or wrong, so that tables with faults in them can be written too.

use crate::configuration::SLOTS;

/// The ops by their names in 01.
pub mod op {
    pub const INT: u16 = 1;
    pub const BOOL: u16 = 2;
    pub const GET: u16 = 3;
    pub const PUT: u16 = 4;
    pub const DROP: u16 = 5;
    pub const CLEAR: u16 = 6;
    pub const NEWQ: u16 = 7;
    pub const NEWC: u16 = 8;
    pub const END: u16 = 9;
    pub const GATE: u16 = 10;
    pub const MEAS: u16 = 11;
    pub const CALL: u16 = 12;
    pub const RET: u16 = 13;
    pub const FORK: u16 = 14;
    pub const SEND: u16 = 15;
    pub const RECV: u16 = 16;
    pub const JUMP: u16 = 17;
    pub const JFALSE: u16 = 18;
    pub const ADD: u16 = 19;
    pub const SUB: u16 = 20;
    pub const EQ: u16 = 21;
    pub const LESS: u16 = 22;
    pub const NOT: u16 = 23;

    /// The names in the order of the numbers, which start at 1.
    pub const NAMES: [&str; 23] = [
        "INT", "BOOL", "GET", "PUT", "DROP", "CLEAR", "NEWQ", "NEWC", "END", "GATE", "MEAS", "CALL", "RET", "FORK",
        "SEND", "RECV", "JUMP", "JFALSE", "ADD", "SUB", "EQ", "LESS", "NOT",
    ];

    /// An op's name, where the op is listed.
    pub fn name(number: u16) -> Option<&'static str> {
        let index = usize::from(number).checked_sub(1)?;
        NAMES.get(index).copied()
    }
}

/// The most methods of a table.
pub const MOST_METHODS: usize = 32;
/// The most instructions of a table.
pub const MOST_INSTRUCTIONS: usize = 4_096;

/// A method: its row and its instructions.
#[derive(Clone, Debug, Default, PartialEq, Eq)]
pub struct Method {
    pub return_type: u16,
    pub parameters: u16,
    /// At most 16 types; missing ones are written as 0.
    pub slots: Vec<u16>,
    pub code: Vec<(u16, u16)>,
}

/// The table of these methods: sizes, pairs, rows, instructions.
///
/// # Panics
/// Where a size does not fit a word; no table has so many methods or
/// instructions.
pub fn table(methods: &[Method]) -> Vec<u16> {
    let instructions = methods.iter().map(|method| method.code.len()).sum();
    let mut words = vec![word(methods.len()), word(instructions)];
    let mut offset = 0;
    for method in methods {
        words.extend([word(offset), word(method.code.len())]);
        offset += method.code.len();
    }
    for method in methods {
        words.extend([method.return_type, method.parameters]);
        let slots = method.slots.iter().copied().chain(std::iter::repeat(0));
        words.extend(slots.take(SLOTS));
    }
    for (op, argument) in methods.iter().flat_map(|method| &method.code) {
        words.extend([*op, *argument]);
    }
    words
}

fn word(number: usize) -> u16 {
    u16::try_from(number).expect("a table's sizes fit a word")
}
