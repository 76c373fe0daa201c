//! A text's names looked up, its table written. Questions 1 and 2 are seen to
//! here, because a refusal would say too little; the questions from 3 on are
//! left to the machine.

use std::collections::BTreeMap;

use data::program::{self, MOST_INSTRUCTIONS, MOST_METHODS};
use data::SLOTS;

use crate::asm::lex::Token;
use crate::asm::parse::{parse, Instruction, InstructionForm, Method, Source};
use crate::code::{Code, Origin};
use crate::error::Error;
use crate::names::{MethodNames, Scope};

/// What a text stands for, with its names. Schedule and outcomes are none where
/// the text has no such section.
#[derive(Clone, Debug, PartialEq, Eq)]
pub struct Assembly {
    pub code: Code,
    pub schedule: Option<Vec<u8>>,
    pub outcomes: Option<Vec<u8>>,
}

/// Assembles a text.
pub fn assemble(text: &str) -> Result<Assembly, Error> {
    let source = parse(text)?;
    check_sizes(&source)?;
    let names: Result<Vec<MethodNames>, Error> = source.methods.iter().map(names_of).collect();
    let names = names?;
    check_method_names(&source)?;
    let methods = source.methods.iter().zip(&names);
    let methods = methods.map(|(method, here)| {
        let methods = &names;
        write_method(method, Scope { methods, here })
    });
    let methods: Vec<program::Method> = methods.collect::<Result<_, Error>>()?;
    let code = Code { methods, names, written: Origin::Text };
    Ok(Assembly { code, schedule: source.schedule, outcomes: source.outcomes })
}

/// Questions 1 and 2: the numbers of methods and instructions.
fn check_sizes(source: &Source) -> Result<(), Error> {
    if source.methods.is_empty() {
        return Err(Error::at(source.end, "expected a method, found none"));
    }
    if let Some(method) = source.methods.get(MOST_METHODS) {
        let message = format!("expected at most {MOST_METHODS} methods, found one more");
        return Err(Error::at(method.name.place, message));
    }
    let mut code = source.methods.iter().flat_map(|method| &method.code);
    if let Some(instruction) = code.nth(MOST_INSTRUCTIONS) {
        let message = format!("expected at most {MOST_INSTRUCTIONS} instructions, found one more");
        return Err(Error::at(instruction.place, message));
    }
    source.methods.iter().try_for_each(check_method)
}

/// A method has code, and at most 16 slots; a label stands before an op.
fn check_method(method: &Method) -> Result<(), Error> {
    if method.code.is_empty() {
        let message = format!("expected an op in method `{}`, found none", method.name.text);
        return Err(Error::at(method.name.place, message));
    }
    if let Some(slot) = method.slots.get(SLOTS) {
        let message = format!("expected at most {SLOTS} slots, parameters among them");
        return Err(Error::at(slot.place, message));
    }
    let mut labels = method.labels.iter();
    match labels.find(|label| label.before == method.code.len()) {
        Some(label) => {
            Err(Error::at(label.name.place, format!("expected an op after the label `{}`", label.name.text)))
        }
        None => Ok(()),
    }
}

/// The first method is where a run starts. Its name says so, lest a text with
/// its main further down run something else.
fn check_method_names(source: &Source) -> Result<(), Error> {
    let first = source.methods[0].name;
    if first.text != "main" {
        return Err(Error::expected(first.place, "`main` as the first method", first.text));
    }
    let names = source.methods.iter().map(|method| method.name);
    check_once("method", names)
}

/// No name twice.
fn check_once<'t>(what: &str, names: impl Iterator<Item = Token<'t>>) -> Result<(), Error> {
    let mut lines = BTreeMap::new();
    for Token { text, place, .. } in names {
        if let Some(first) = lines.insert(text, place.line) {
            let message = format!("expected a new name, found the {what} `{text}` of line {first}");
            return Err(Error::at(place, message));
        }
    }
    Ok(())
}

fn names_of(method: &Method) -> Result<MethodNames, Error> {
    check_once("slot", method.slots.iter().filter_map(|slot| slot.name))?;
    check_once("label", method.labels.iter().map(|label| label.name))?;
    let text = |token: Token| token.text.to_string();
    let slots = method.slots.iter().map(|slot| slot.name.map(text));
    let labels = method.labels.iter();
    let labels = labels.map(|label| (text(label.name), target(label.before)));
    Ok(MethodNames {
        name: text(method.name),
        slots: slots.collect(),
        labels: labels.collect(),
        header: Some(method.name.place),
        places: method.code.iter().map(|one| one.place).collect(),
    })
}

fn target(instructions: usize) -> u16 {
    u16::try_from(instructions).expect("a label stands before one of 4,096 instructions")
}

fn write_method(method: &Method, scope: Scope) -> Result<program::Method, Error> {
    let mut slots: Vec<u16> = method.slots.iter().map(|slot| slot.kind).collect();
    slots.resize(SLOTS, 0);
    let code = method.code.iter();
    let code = code.map(|instruction| write_instruction(instruction, scope));
    Ok(program::Method {
        return_type: method.return_type,
        parameters: method.parameters,
        slots,
        code: code.collect::<Result<_, Error>>()?,
    })
}

fn write_instruction(instruction: &Instruction, scope: Scope) -> Result<(u16, u16), Error> {
    let (op, phrases) = match &instruction.form {
        InstructionForm::Raw(op, argument) => return Ok((*op, *argument)),
        InstructionForm::Named(op, phrases) => (op, phrases),
    };
    let fields = op.fields.iter().zip(phrases);
    let numbers = fields.map(|(field, phrase)| {
        let number = field.part.number(&phrase.text, scope);
        number.ok_or_else(|| {
            let expected = field.part.expected(scope);
            Error::expected(phrase.place, &expected, &phrase.text)
        })
    });
    let numbers: Vec<u16> = numbers.collect::<Result<_, Error>>()?;
    Ok((op.number, op.argument(&numbers)))
}
