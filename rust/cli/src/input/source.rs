//! A program from a file. The file's ending says what it is.

use std::path::Path;

use data::program;
use data::{Question, Refusal};

use crate::asm::assemble::{assemble, Assembly};
use crate::asm::lex;
use crate::asm::parse::parse;
use crate::case_refusal::{CaseRefusal, RefusalPlace};
use crate::code::Code;
use crate::error::{Error, Failure};
use crate::input::file::Parts;
use crate::machine::Machine;
use crate::text::names::code;
use crate::text::place::TextPlace;
use crate::text::reason::reason;

/// A text of the assembler.
pub const ASSEMBLER: &str = "lqa";
/// A text in LanQ.
pub const LANQ: &str = "lanq";
/// What a LanQ text's schedule and outcomes stand in, beside it: `name.lanq.run`.
pub const INPUTS: &str = "run";
/// An input file of the printing program. Files of other endings are taken for
/// such too.
pub const TABLE: &str = "bin";

/// A program, with the schedule and the outcomes that stand with it.
#[derive(Clone, Debug, PartialEq, Eq)]
pub struct Source {
    /// The file.
    pub name: String,
    pub program: Vec<u16>,
    /// The LanQ text that the program was given as.
    pub text: Option<Vec<u8>>,
    /// None where the table does not say where its methods start.
    pub code: Option<Code>,
    pub schedule: Option<Vec<u8>>,
    pub outcomes: Option<Vec<u8>>,
}

/// Reads a program; a LanQ text is translated by a machine.
pub fn read(path: &Path, machine: Machine) -> Result<Source, Failure> {
    let name = path.display().to_string();
    let ending = path.extension().and_then(|ending| ending.to_str()).unwrap_or_default();
    match ending {
        ASSEMBLER => read_assembler(name, &bytes(path)?),
        LANQ => read_lanq(path, machine),
        _ => read_table(name, &bytes(path)?),
    }
}

/// The bytes of a file.
pub fn bytes(path: &Path) -> Result<Vec<u8>, Failure> {
    let name = path.display().to_string();
    std::fs::read(path).map_err(|error| Failure::of(&name, format!("cannot be read: {error}")))
}

/// The text of a file.
pub fn text(path: &Path) -> Result<String, Failure> {
    let bytes = bytes(path)?;
    let text = lex::text(&bytes).map_err(|error| Failure::in_text(&path.display().to_string(), &error))?;
    Ok(text.to_string())
}

fn read_assembler(name: String, bytes: &[u8]) -> Result<Source, Failure> {
    let assembled = lex::text(bytes).and_then(assemble);
    let Assembly { code, schedule, outcomes } = assembled.map_err(|error| Failure::in_text(&name, &error))?;
    let program = program::table(&code.methods);
    Ok(Source { name, program, text: None, code: Some(code), schedule, outcomes })
}

/// A LanQ text, with what stands in the file beside it.
fn read_lanq(path: &Path, machine: Machine) -> Result<Source, Failure> {
    let name = path.display().to_string();
    let text = bytes(path)?;
    let program = machine.translate(&text).map_err(|refusal| refused_text(&name, &text, refusal, machine))?;
    let methods = lanq::Program::from(program.as_slice()).methods();
    let code = methods.ok().map(|methods| code(&text, methods));
    let (schedule, outcomes) = read_inputs(&path.with_extension(format!("{LANQ}.{INPUTS}")))?;
    Ok(Source { name, program, text: Some(text), code, schedule, outcomes })
}

/// A refusal of a text by 30, 31 or 32, in words.
pub fn refused_text(name: &str, text: &[u8], refusal: Refusal, machine: Machine) -> Failure {
    let rule = reason(text, refusal, &|text| machine.translate(text).err());
    let at = RefusalPlace::Text(TextPlace::new(text, refusal.place));
    Failure::Refused(Box::new(CaseRefusal { name: name.to_string(), refusal, rule, at }))
}

/// Schedule and outcomes of a LanQ text, written as in a text of the assembler;
/// neither where the file is not there.
type Inputs = (Option<Vec<u8>>, Option<Vec<u8>>);

fn read_inputs(path: &Path) -> Result<Inputs, Failure> {
    if !path.exists() {
        return Ok((None, None));
    }
    let name = path.display().to_string();
    let text = text(path)?;
    let source = parse(&text).map_err(|error| Failure::in_text(&name, &error))?;
    if let Some(method) = source.methods.first() {
        let why = "expected `schedule` or `outcomes` alone, found a method";
        return Err(Failure::in_text(&name, &Error::at(method.name.place, why)));
    }
    Ok((source.schedule, source.outcomes))
}

fn read_table(name: String, bytes: &[u8]) -> Result<Source, Failure> {
    let parts = Parts::read(bytes).map_err(|why| {
        let refusal = Refusal::new(Question::File, 0);
        Failure::Refused(Box::new(CaseRefusal { name: name.clone(), refusal, rule: why, at: RefusalPlace::Nowhere }))
    })?;
    let methods = lanq::Program::from(parts.program.as_slice()).methods();
    Ok(Source {
        name,
        program: parts.program,
        text: None,
        code: methods.ok().map(Code::of_table),
        schedule: Some(parts.schedule),
        outcomes: Some(parts.outcomes),
    })
}
