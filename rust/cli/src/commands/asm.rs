//! `lanq asm`

use data::file::{file, MOST_BYTES};

use crate::commands::{schedule_note, Command, CommandResult};
use crate::error::Failure;
use crate::options::{Arguments, INPUTS};

pub const COMMAND: Command = Command {
    name: "asm",
    usage: "CASE > FILE.bin [options]",
    about: "writes a case as the printing program's input file, to standard output",
    more: "\
A text is assembled: its names are looked up and its table is written. What is wrong in it is shown
with line, column and what was expected there, and nothing is written then. The questions from 3 on
are not put; lanq check puts them. A LanQ text is translated.",
    options: &[INPUTS],
    run,
};

fn run(arguments: &Arguments) -> Result<CommandResult, Failure> {
    let case = arguments.one_case()?.case()?;
    let bytes = file(&case.program, &case.schedule, &case.outcomes);
    if bytes.len() > MOST_BYTES {
        let why = format!("has {} bytes as an input file, at most {MOST_BYTES} are read", bytes.len());
        return Err(Failure::of(&case.name, why));
    }
    // A text without a schedule is written without one.
    let notes = if case.made.is_some() { schedule_note(&case) } else { String::new() };
    Ok(CommandResult { notes, ..CommandResult::said(bytes) })
}
