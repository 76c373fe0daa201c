//! A program's methods with their names, and where each instruction stands.

use std::fmt;

use data::program::Method;

use crate::asm::list::listing;
use crate::asm::ops::instruction_text;
use crate::error::Place;
use crate::names::{MethodNames, Scope};

/// What the places of names are places of.
#[derive(Clone, Copy, Debug, PartialEq, Eq)]
pub enum Origin {
    /// The text that was read.
    Text,
    /// What `lanq list` writes.
    Listing,
}

/// Methods that say where each one starts, with their names.
#[derive(Clone, Debug, PartialEq, Eq)]
pub struct Code {
    pub methods: Vec<Method>,
    pub names: Vec<MethodNames>,
    pub written: Origin,
}

/// An instruction, by its method and its number in it, by its number over the
/// table, and by the line of the text or the listing.
#[derive(Clone, Debug, PartialEq, Eq)]
pub struct Site {
    pub method: usize,
    pub method_name: String,
    /// From the method's start.
    pub instruction: usize,
    /// Over the table.
    pub place: usize,
    pub written: Option<(Place, Origin)>,
    pub text: String,
}

impl Code {
    /// The code of a table without a text: names are made up, and places are
    /// those of the listing, where it can be listed.
    pub fn of_table(methods: Vec<Method>) -> Code {
        let names = listing(&methods).names;
        Code { methods, names, written: Origin::Listing }
    }

    /// An instruction's method and its number in it.
    pub fn locate(&self, place: usize) -> Option<(usize, usize)> {
        let mut start = 0;
        for (number, method) in self.methods.iter().enumerate() {
            let end = start + method.code.len();
            if place < end {
                return Some((number, place - start));
            }
            start = end;
        }
        None
    }

    /// Op and argument of an instruction.
    pub fn instruction(&self, place: usize) -> Option<(u16, u16)> {
        let (method, instruction) = self.locate(place)?;
        self.methods[method].code.get(instruction).copied()
    }

    /// An instruction, counted over the table.
    pub fn site(&self, place: usize) -> Option<Site> {
        let (method, instruction) = self.locate(place)?;
        let names = &self.names[method];
        let scope = Scope { methods: &self.names, here: names };
        Some(Site {
            method,
            method_name: names.name.clone(),
            instruction,
            place,
            written: names.places.get(instruction).map(|place| (*place, self.written)),
            text: instruction_text(self.methods[method].code[instruction], scope),
        })
    }

    pub fn method_name(&self, method: usize) -> String {
        let names = self.names.get(method);
        names.map_or_else(|| format!("method {method}"), |names| names.name.clone())
    }

    pub fn slot_name(&self, method: usize, slot: usize) -> String {
        let names = self.names.get(method).and_then(|names| names.slots.get(slot));
        names.cloned().flatten().unwrap_or_else(|| format!("slot {slot}"))
    }
}

impl Site {
    /// Method and instruction, the table's number beside it.
    pub fn numbers(&self) -> String {
        format!("{} {} (table {})", self.method_name, self.instruction, self.place)
    }
}

/// Method and instruction, with the table's number and the line beside it, then
/// the instruction: `main 14 (table 14, line 28): GET q`.
impl fmt::Display for Site {
    fn fmt(&self, f: &mut fmt::Formatter) -> fmt::Result {
        let Site { method_name, instruction, place, text, .. } = self;
        let line = match self.written {
            Some((place, Origin::Text)) => format!(", line {}", place.line),
            Some((place, Origin::Listing)) => format!(", line {} of the listing", place.line),
            None => String::new(),
        };
        write!(f, "{method_name} {instruction} (table {place}{line}): {text}")
    }
}
