//! `lanq check`

use crate::commands::{Command, CommandResult};
use crate::error::Failure;
use crate::options::{Arguments, INPUTS, MODEL};

pub const COMMAND: Command = Command {
    name: "check",
    usage: "CASE [options]",
    about: "puts the questions to a case and runs nothing",
    more: "\
Prints that the case is accepted. A refusal has the question's number and place, the rule that is
broken, and the instruction with its method, its number in it, its number over the table and its
line in the text, or in what lanq list writes. A LanQ text is refused by 30, 31 or 32 before all
questions, with the byte, its line and column, and a mark under it.",
    options: &[INPUTS, &[MODEL]],
    run,
};

fn run(arguments: &Arguments) -> Result<CommandResult, Failure> {
    let given = arguments.one_case()?;
    let case = given.case()?;
    let checked = given.machine.check(&case.program, &case.schedule, &case.outcomes);
    checked.map_err(|refusal| case.refused(refusal))?;
    let methods = case.program.first().copied().unwrap_or_default();
    let instructions = case.program.get(1).copied().unwrap_or_default();
    Ok(CommandResult::said(format!(
        "{}: accepted; methods {methods}, instructions {instructions}, entries {}, outcomes {}\n",
        case.name,
        case.schedule.len(),
        case.outcomes.len()
    )))
}
