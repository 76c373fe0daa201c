//! The grammar of the text form, which stands in docs/COMMAND.md. What is
//! read here is the form alone; names are looked up when all are known.

use std::num::NonZeroU16;

use crate::asm::cursor::{Cursor, Phrase};
use crate::asm::lex::{lines, Kind, Token};
use crate::asm::ops::Op;
use crate::asm::types;
use crate::error::{Error, Place};

/// A whole text.
#[derive(Debug, Default)]
pub struct Source<'t> {
    pub methods: Vec<Method<'t>>,
    /// None where the text has no such section.
    pub schedule: Option<Vec<u8>>,
    pub outcomes: Option<Vec<u8>>,
    /// Where the last line ends.
    pub end: Place,
}

#[derive(Debug)]
pub struct Method<'t> {
    pub name: Token<'t>,
    pub return_type: u16,
    pub parameters: u16,
    /// Parameters first.
    pub slots: Vec<Slot<'t>>,
    pub labels: Vec<Label<'t>>,
    pub code: Vec<Instruction>,
}

/// A slot; an unused one has no name and type 0.
#[derive(Debug)]
pub struct Slot<'t> {
    pub name: Option<Token<'t>>,
    pub kind: u16,
    pub place: Place,
}

/// A label and how many instructions stand before it.
#[derive(Debug)]
pub struct Label<'t> {
    pub name: Token<'t>,
    pub before: usize,
}

#[derive(Debug)]
pub struct Instruction {
    pub place: Place,
    pub form: InstructionForm,
}

#[derive(Debug)]
pub enum InstructionForm {
    /// An op with one phrase for each field of its argument.
    Named(&'static Op, Vec<Phrase>),
    /// Op and argument as they are.
    Raw(u16, u16),
}

/// What the lines belong to.
#[derive(Clone, Copy, Debug, PartialEq, Eq)]
enum Section {
    Start,
    Method,
    Schedule,
    Outcomes,
}

#[derive(Debug)]
struct Parser<'t> {
    source: Source<'t>,
    section: Section,
    /// The sections of numbers seen so far.
    seen: Vec<(Section, Place)>,
}

/// More than any schedule that is run.
pub const MOST_NUMBERS: usize = 100_000;

const A_SECTION: &str = "`method`, `schedule` or `outcomes`";

/// Reads a text.
pub fn parse(text: &str) -> Result<Source<'_>, Error> {
    let mut parser = Parser { source: Source::default(), section: Section::Start, seen: Vec::new() };
    for line in lines(text)? {
        parser.line(&mut Cursor::new(&line))?;
        parser.source.end = line.end;
    }
    Ok(parser.source)
}

impl<'t> Parser<'t> {
    fn line(&mut self, line: &mut Cursor<'_, 't>) -> Result<(), Error> {
        match (line.keyword(), self.section) {
            (Some("method"), _) => self.method(line),
            (Some("schedule"), _) => self.start_numbers(line, Section::Schedule),
            (Some("outcomes"), _) => self.start_numbers(line, Section::Outcomes),
            (_, Section::Start) => Err(line.error(A_SECTION)),
            (Some("slots"), Section::Method) => self.slots(line),
            (_, Section::Method) => self.instruction(line),
            (Some(_), _) => Err(line.error(&format!("a number, {A_SECTION}"))),
            (None, _) => self.numbers(line),
        }
    }

    /// `method TYPE NAME ( SLOT , ... )`
    fn method(&mut self, line: &mut Cursor<'_, 't>) -> Result<(), Error> {
        line.take(Kind::Word, "`method`")?;
        let return_type = read_return_type(line)?;
        let name = line.take(Kind::Word, "the method's name")?;
        line.mark("(")?;
        let mut slots = Vec::new();
        if !line.skip(")") {
            slots = read_slots(line)?;
            line.mark(")")?;
        }
        line.finish()?;
        self.section = Section::Method;
        self.source.methods.push(Method {
            name,
            return_type,
            parameters: u16::try_from(slots.len()).unwrap_or(u16::MAX),
            slots,
            labels: Vec::new(),
            code: Vec::new(),
        });
        Ok(())
    }

    /// The method that the line stands in.
    fn here(&mut self) -> &mut Method<'t> {
        let last = self.source.methods.last_mut();
        last.expect("a section of a method follows its header")
    }

    /// `slots SLOT , ...`
    fn slots(&mut self, line: &mut Cursor<'_, 't>) -> Result<(), Error> {
        line.take(Kind::Word, "`slots`")?;
        let slots = read_slots(line)?;
        line.finish()?;
        self.here().slots.extend(slots);
        Ok(())
    }

    /// `LABEL : ... OP ARGUMENT`, either of which may be missing.
    fn instruction(&mut self, line: &mut Cursor<'_, 't>) -> Result<(), Error> {
        while line.at_label() {
            let name = line.take(Kind::Word, "a label")?;
            line.mark(":")?;
            let before = self.here().code.len();
            self.here().labels.push(Label { name, before });
        }
        if line.at_end() {
            return Ok(());
        }
        let instruction = read_instruction(line)?;
        line.finish()?;
        self.here().code.push(instruction);
        Ok(())
    }

    /// `schedule` or `outcomes`, each at most once.
    fn start_numbers(&mut self, line: &mut Cursor<'_, 't>, section: Section) -> Result<(), Error> {
        let place = line.place();
        let word = line.take(Kind::Word, A_SECTION)?.text;
        if let Some((_, first)) = self.seen.iter().find(|seen| seen.0 == section) {
            let first = first.line;
            let message = format!("expected one `{word}`, found a second (the first is in line {first})");
            return Err(Error::at(place, message));
        }
        self.seen.push((section, place));
        self.section = section;
        self.bytes();
        self.numbers(line)
    }

    /// `NUMBER` or `NUMBER * COUNT`, up to the line's end.
    fn numbers(&mut self, line: &mut Cursor<'_, 't>) -> Result<(), Error> {
        while !line.at_end() {
            let place = line.place();
            let number = read_number(line, "a number from 0 to 255")?;
            let mut count = NonZeroU16::MIN;
            if line.skip("*") {
                count = read_number(line, "a count from 1 to 65535")?;
            }
            self.add(number, usize::from(count.get()), place)?;
        }
        Ok(())
    }

    /// The numbers of the section that the line stands in.
    fn bytes(&mut self) -> &mut Vec<u8> {
        let bytes = match self.section {
            Section::Outcomes => &mut self.source.outcomes,
            _ => &mut self.source.schedule,
        };
        bytes.get_or_insert_default()
    }

    /// Stops before a small text asks for endless room.
    fn add(&mut self, number: u8, count: usize, place: Place) -> Result<(), Error> {
        let bytes = self.bytes();
        if bytes.len() + count > MOST_NUMBERS {
            return Err(Error::at(place, format!("expected at most {MOST_NUMBERS} entries, found more")));
        }
        bytes.extend(std::iter::repeat_n(number, count));
        Ok(())
    }
}

fn read_return_type(line: &mut Cursor) -> Result<u16, Error> {
    if line.skip(&types::void()) {
        return Ok(0);
    }
    read_type(line, &format!("`{}` or {}", types::void(), types::EXPECTED))
}

fn read_type(line: &mut Cursor, expected: &str) -> Result<u16, Error> {
    let phrase = line.phrase(expected, types::opens)?;
    let number = types::number(&phrase.text);
    number.ok_or_else(|| Error::expected(phrase.place, expected, &phrase.text))
}

/// `SLOT , ...`, at least one.
fn read_slots<'t>(line: &mut Cursor<'_, 't>) -> Result<Vec<Slot<'t>>, Error> {
    let mut slots = vec![read_slot(line)?];
    while line.skip(",") {
        slots.push(read_slot(line)?);
    }
    Ok(slots)
}

/// `TYPE NAME`, or `-` for an unused slot.
fn read_slot<'t>(line: &mut Cursor<'_, 't>) -> Result<Slot<'t>, Error> {
    let place = line.place();
    if line.skip(types::UNUSED) {
        return Ok(Slot { name: None, kind: 0, place });
    }
    let kind = read_type(line, types::EXPECTED)?;
    let name = Some(line.take(Kind::Word, "the slot's name")?);
    Ok(Slot { name, kind, place })
}

/// An op with its argument, or `raw OP ARGUMENT`.
fn read_instruction(line: &mut Cursor) -> Result<Instruction, Error> {
    let place = line.place();
    let expected = "an op, a label or `slots`";
    let word = line.keyword().ok_or_else(|| line.error(expected))?;
    let op = Op::named(word);
    if op.is_none() && word != types::RAW {
        return Err(unknown_op(line, word, expected));
    }
    line.take(Kind::Word, expected)?;
    let form = match op {
        Some(op) => InstructionForm::Named(op, read_fields(line, op)?),
        None => {
            let number = read_number(line, "the op as a number from 0 to 65535")?;
            InstructionForm::Raw(number, read_number(line, "the argument as a number from 0 to 65535")?)
        }
    };
    Ok(Instruction { place, form })
}

fn read_fields(line: &mut Cursor, op: &Op) -> Result<Vec<Phrase>, Error> {
    let fields = op.fields.iter();
    let phrases = fields.map(|field| {
        // Only a listed word has parentheses; a slot may be called `end`.
        let opens = if field.part.opens() { types::opens } else { |_: &str| false };
        line.phrase(&field.part.what(), opens)
    });
    phrases.collect()
}

/// Small letters are the likely slip, so the message says so.
fn unknown_op(line: &Cursor, word: &str, expected: &str) -> Error {
    match Op::named(&word.to_uppercase()) {
        Some(op) => line.error(&format!("the op in capitals, {}", op.name)),
        None => line.error(expected),
    }
}

/// A number that its type can hold.
fn read_number<N: std::str::FromStr>(line: &mut Cursor, what: &str) -> Result<N, Error> {
    let token = line.take(Kind::Number, what)?;
    let number = token.text.parse();
    number.map_err(|_| Error::expected(token.place, what, token.text))
}
