//! `lanq explain`

use crate::commands::{Command, CommandResult};
use crate::error::Failure;
use crate::explain::explain;
use crate::options::{flag, Arguments, Opt, INPUTS, RUN};

pub const COMMAND: Command = Command {
    name: "explain",
    usage: "CASE [--all] [options]",
    about: "runs a case and explains its run in words",
    more: "\
Each line of the trace has a sentence and who holds what after it. Then come the end, the counts,
and each process: whether it is able to move or for whom it waits, its frames, and what was emptied
in them, with the entry and the reason.",
    options: &[OPTIONS, INPUTS, RUN],
    run,
};

const OPTIONS: &[Opt] = &[flag("--all", "show every entry: idle ones with the reason, those without a line in blocks")];

fn run(arguments: &Arguments) -> Result<CommandResult, Failure> {
    let given = arguments.one_case()?;
    let case = given.case()?;
    let run = given.run(&case)?;
    // A case that runs has passed questions 1 and 2.
    let Some(code) = &case.code else { return Err(Failure::of(&case.name, "has no methods")) };
    Ok(CommandResult::of_case(&case, explain(&given, &case, code, &run, arguments.has("--all"))))
}
