//! The ops' arguments, one row each, for the assembler and the lister alike.

use data::program::op;
use data::{CarriedType, Gate};

use crate::asm::types::RAW;
use crate::names::Scope;

/// One part of an argument, as it is written.
#[derive(Clone, Copy, Debug)]
pub enum Part {
    /// A signed number of 16 bits.
    Int,
    /// A number in a range.
    Number {
        low: u16,
        high: u16,
    },
    Bool,
    Gate,
    CarriedType,
    Slot,
    Method,
    Label,
}

impl Part {
    /// The number that a text stands for, if it is such a part.
    pub fn number(self, text: &str, scope: Scope) -> Option<u16> {
        match self {
            Part::Int => {
                let value: i16 = text.parse().ok()?;
                Some(u16::from_le_bytes(value.to_le_bytes()))
            }
            Part::Number { low, high } => {
                let number: u16 = text.parse().ok()?;
                (low..=high).contains(&number).then_some(number)
            }
            Part::Bool | Part::Gate | Part::CarriedType => {
                let words = self.words();
                words.iter().find(|(word, _)| word == text).map(|(_, number)| *number)
            }
            Part::Slot => scope.slot(text),
            Part::Method => scope.method(text),
            Part::Label => scope.label(text),
        }
    }

    /// The text that stands for a number, if there is one.
    pub fn text(self, number: u16, scope: Scope) -> Option<String> {
        match self {
            Part::Int => {
                let value = i16::from_le_bytes(number.to_le_bytes());
                Some(value.to_string())
            }
            Part::Number { low, high } => {
                let listed = (low..=high).contains(&number);
                listed.then(|| number.to_string())
            }
            Part::Bool | Part::Gate | Part::CarriedType => {
                let mut words = self.words().into_iter();
                words.find(|(_, one)| *one == number).map(|(word, _)| word)
            }
            Part::Slot => scope.slot_name(number).map(str::to_string),
            Part::Method => scope.method_name(number).map(str::to_string),
            Part::Label => scope.label_name(number).map(str::to_string),
        }
    }

    /// The words that stand for numbers, where a part has such.
    fn words(self) -> Vec<(String, u16)> {
        match self {
            Part::Bool => [false, true].map(|value| (value.to_string(), u16::from(value))).to_vec(),
            Part::Gate => Gate::ALL.map(|gate| (gate.to_string(), gate.number())).to_vec(),
            Part::CarriedType => CarriedType::ALL.map(|carried| (carried.to_string(), carried.number())).to_vec(),
            _ => Vec::new(),
        }
    }

    /// Whether a word of this part may have parentheses.
    pub fn opens(self) -> bool {
        matches!(self, Part::CarriedType)
    }

    /// What was expected, without the names of a program.
    pub fn what(self) -> String {
        let what = match self {
            Part::Int => return "a number from -32768 to 32767".to_string(),
            Part::Number { low, high } => return format!("a number from {low} to {high}"),
            Part::Slot => return "a slot".to_string(),
            Part::Method => return "a method".to_string(),
            Part::Label => return "a label".to_string(),
            Part::Bool => "a boolean",
            Part::Gate => "a gate",
            Part::CarriedType => "a type that channels carry",
        };
        let names: Vec<String> = self.words().into_iter().map(|(word, _)| word).collect();
        format!("{what} ({})", names.join(", "))
    }

    /// What was expected, with the names that would do.
    pub fn expected(self, scope: Scope) -> String {
        let names = match self {
            Part::Slot => scope.slot_names(),
            Part::Method => scope.method_names(),
            Part::Label => scope.label_names(),
            _ => return self.what(),
        };
        match names.is_empty() {
            true => format!("{} (there is none)", self.what()),
            false => format!("{} ({})", self.what(), names.join(", ")),
        }
    }
}

/// A part, and what it is multiplied by in the argument. An argument is the
/// sum of its fields, each below the factor of the one before.
#[derive(Clone, Copy, Debug)]
pub struct Field {
    pub part: Part,
    pub factor: u16,
}

/// A row of the table.
#[derive(Clone, Copy, Debug)]
pub struct Op {
    pub number: u16,
    pub name: &'static str,
    /// None where the argument is 0.
    pub fields: &'static [Field],
}

impl Op {
    pub fn named(name: &str) -> Option<&'static Op> {
        OPS.iter().find(|op| op.name == name)
    }

    pub fn numbered(number: u16) -> Option<&'static Op> {
        OPS.iter().find(|op| op.number == number)
    }

    /// The argument that these numbers of its fields make.
    pub fn argument(&self, numbers: &[u16]) -> u16 {
        let fields = self.fields.iter().zip(numbers);
        fields.map(|(field, number)| field.factor * number).sum()
    }

    /// The instruction as text, unless its argument has no name.
    pub fn text(&self, argument: u16, scope: Scope) -> Option<String> {
        let mut text = self.name.to_string();
        let mut rest = argument;
        for field in self.fields {
            text += " ";
            text += &field.part.text(rest / field.factor, scope)?;
            rest %= field.factor;
        }
        (rest == 0).then_some(text)
    }

    /// Whether the argument is an instruction to jump to.
    pub fn jumps(&self) -> bool {
        let mut parts = self.fields.iter().map(|field| field.part);
        parts.any(|part| matches!(part, Part::Label))
    }
}

/// An instruction as text, by its bare numbers where it has no other.
pub fn instruction_text((op, argument): (u16, u16), scope: Scope) -> String {
    let text = Op::numbered(op).and_then(|row| row.text(argument, scope));
    text.unwrap_or_else(|| format!("{RAW} {op} {argument}"))
}

/// A field that is the whole argument.
const fn whole(part: Part) -> Field {
    Field { part, factor: 1 }
}

/// An op's row; the names stand in the order of the numbers.
const fn row(number: u16, fields: &'static [Field]) -> Op {
    Op { number, name: op::NAMES[number as usize - 1], fields }
}

const INT: &[Field] = &[whole(Part::Int)];
const BOOLEAN: &[Field] = &[whole(Part::Bool)];
const SLOT: &[Field] = &[whole(Part::Slot)];
const CARRIED: &[Field] = &[whole(Part::CarriedType)];
const SIDE: &[Field] = &[whole(Part::Number { low: 0, high: 1 })];
const GATE: &[Field] = &[whole(Part::Gate)];
const METHOD: &[Field] = &[whole(Part::Method)];
const LABEL: &[Field] = &[whole(Part::Label)];

/// The ops in 01's order: a further op is one more row.
pub static OPS: &[Op] = &[
    row(op::INT, INT),
    row(op::BOOL, BOOLEAN),
    row(op::GET, SLOT),
    row(op::PUT, SLOT),
    row(op::DROP, &[]),
    row(op::CLEAR, SLOT),
    row(op::NEWQ, &[]),
    row(op::NEWC, CARRIED),
    row(op::END, SIDE),
    row(op::GATE, GATE),
    row(op::MEAS, &[]),
    row(op::CALL, METHOD),
    row(op::RET, &[]),
    row(op::FORK, METHOD),
    row(op::SEND, &[]),
    row(op::RECV, &[]),
    row(op::JUMP, LABEL),
    row(op::JFALSE, LABEL),
    row(op::ADD, &[]),
    row(op::SUB, &[]),
    row(op::EQ, &[]),
    row(op::LESS, &[]),
    row(op::NOT, &[]),
];
