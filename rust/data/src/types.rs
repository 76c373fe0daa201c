//! Types, sides and gates, by 01's numbers and by the names that texts have for
//! them.

use std::fmt;

use crate::numbered;

/// What a channel carries: "T is 1, 2 or 3".
#[derive(Clone, Copy, Debug, PartialEq, Eq, PartialOrd, Ord, Hash)]
pub enum CarriedType {
    Int = 1,
    Bool = 2,
    Qubit = 3,
}

impl CarriedType {
    /// All of them, by their numbers.
    pub const ALL: [CarriedType; 3] = [CarriedType::Int, CarriedType::Bool, CarriedType::Qubit];

    /// Reads T.
    pub fn read(word: u16) -> Option<CarriedType> {
        numbered(&CarriedType::ALL, CarriedType::number, word)
    }

    /// 01's number of it.
    pub fn number(self) -> u16 {
        self as u16
    }

    /// The type of a carried value.
    pub fn as_type(self) -> Type {
        match self {
            CarriedType::Int => Type::Int,
            CarriedType::Bool => Type::Bool,
            CarriedType::Qubit => Type::Qubit,
        }
    }
}

impl fmt::Display for CarriedType {
    fn fmt(&self, f: &mut fmt::Formatter) -> fmt::Result {
        self.as_type().fmt(f)
    }
}

/// "Types: 0 none, 1 int, 2 boolean, 3 qbit, 16+T channel and 32+T channel
/// end carrying T"
#[derive(Clone, Copy, Debug, PartialEq, Eq, PartialOrd, Ord, Hash)]
pub enum Type {
    None,
    Int,
    Bool,
    Qubit,
    Channel(CarriedType),
    End(CarriedType),
}

impl Type {
    /// Reads a type's word; nothing but the listed numbers is a type.
    pub fn read(word: u16) -> Option<Type> {
        match word {
            0 => Some(Type::None),
            1 => Some(Type::Int),
            2 => Some(Type::Bool),
            3 => Some(Type::Qubit),
            16..=31 => CarriedType::read(word - 16).map(Type::Channel),
            32..=47 => CarriedType::read(word - 32).map(Type::End),
            _ => None,
        }
    }

    /// 01's number of it.
    pub fn number(self) -> u16 {
        match self {
            Type::None => 0,
            Type::Int => 1,
            Type::Bool => 2,
            Type::Qubit => 3,
            Type::Channel(carried) => 16 + carried.number(),
            Type::End(carried) => 32 + carried.number(),
        }
    }
}

/// As the assembler's text writes it.
impl fmt::Display for Type {
    fn fmt(&self, f: &mut fmt::Formatter) -> fmt::Result {
        match self {
            Type::None => f.write_str("void"),
            Type::Int => f.write_str("int"),
            Type::Bool => f.write_str("bool"),
            Type::Qubit => f.write_str("qbit"),
            Type::Channel(carried) => write!(f, "channel({carried})"),
            Type::End(carried) => write!(f, "end({carried})"),
        }
    }
}

/// One of a channel's two ends.
#[derive(Clone, Copy, Debug, PartialEq, Eq, PartialOrd, Ord, Hash)]
pub enum Side {
    Zero = 0,
    One = 1,
}

impl Side {
    /// Both of them.
    pub const ALL: [Side; 2] = [Side::Zero, Side::One];

    /// Reads "side 0 or 1".
    pub fn read(word: u16) -> Option<Side> {
        numbered(&Side::ALL, Side::number, word)
    }

    /// 01's number of it.
    pub fn number(self) -> u16 {
        self as u16
    }

    /// The opposite side.
    pub fn other(self) -> Side {
        match self {
            Side::Zero => Side::One,
            Side::One => Side::Zero,
        }
    }
}

impl fmt::Display for Side {
    fn fmt(&self, f: &mut fmt::Formatter) -> fmt::Result {
        self.number().fmt(f)
    }
}

/// "1 X, 2 Y, 3 Z, 4 H, 5 S, 6 CX, 7 CZ, 8 SWAP"
#[derive(Clone, Copy, Debug, PartialEq, Eq, PartialOrd, Ord, Hash)]
pub enum Gate {
    X = 1,
    Y = 2,
    Z = 3,
    H = 4,
    S = 5,
    Cx = 6,
    Cz = 7,
    Swap = 8,
}

impl Gate {
    /// All of them, by their numbers.
    pub const ALL: [Gate; 8] = [Gate::X, Gate::Y, Gate::Z, Gate::H, Gate::S, Gate::Cx, Gate::Cz, Gate::Swap];

    /// Reads a gate's number.
    pub fn read(word: u16) -> Option<Gate> {
        numbered(&Gate::ALL, Gate::number, word)
    }

    /// 01's number of it.
    pub fn number(self) -> u16 {
        self as u16
    }

    /// "one qubit off for 1 to 5, else two"
    pub fn takes_two(self) -> bool {
        matches!(self, Gate::Cx | Gate::Cz | Gate::Swap)
    }

    /// Its name in 01.
    pub fn name(self) -> &'static str {
        match self {
            Gate::X => "X",
            Gate::Y => "Y",
            Gate::Z => "Z",
            Gate::H => "H",
            Gate::S => "S",
            Gate::Cx => "CX",
            Gate::Cz => "CZ",
            Gate::Swap => "SWAP",
        }
    }
}

impl fmt::Display for Gate {
    fn fmt(&self, f: &mut fmt::Formatter) -> fmt::Result {
        f.write_str(self.name())
    }
}
