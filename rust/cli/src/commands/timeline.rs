//! `lanq timeline`

use std::ops::RangeInclusive;

use crate::commands::{Command, CommandResult};
use crate::error::Failure;
use crate::options::{valued, Arguments, Opt, INPUTS, RUN};
use crate::timeline::timeline;

pub const COMMAND: Command = Command {
    name: "timeline",
    usage: "CASE > FILE.svg [options]",
    about: "runs a case and draws who held each qubit and channel end, to standard output",
    more: "\
There is one column for each entry that wrote lines, with its number. The row of a qubit or an end
has the colour and the number of the process that holds it. Boxes are gates and measurements (M with
its outcome, \u{2205} for no click), arrows between processes are forks and meetings, S and R mark the
ends that were used, a cross is a fault.",
    options: &[OPTIONS, INPUTS, RUN],
    run,
};

const OPTIONS: &[Opt] = &[valued("--entries", "FROM-TO", "only these entries of the run")];

fn run(arguments: &Arguments) -> Result<CommandResult, Failure> {
    let given = arguments.one_case()?;
    let entries = arguments.value("--entries").map(range).transpose()?;
    let case = given.case()?;
    let run = given.run(&case)?;
    let Some(code) = &case.code else { return Err(Failure::of(&case.name, "has no methods")) };
    let drawn = timeline(&case.name, code, &run, entries.unwrap_or(0..=usize::MAX));
    Ok(CommandResult::of_case(&case, drawn))
}

fn range(text: &str) -> Result<RangeInclusive<usize>, Failure> {
    let numbers = text.split_once('-').and_then(|(from, to)| Some((from.parse().ok()?, to.parse().ok()?)));
    match numbers {
        Some((from, to)) if from <= to => Ok(from..=to),
        _ => Err(Failure::Call(format!("--entries wants two numbers, as 0-200, not {text}"))),
    }
}
