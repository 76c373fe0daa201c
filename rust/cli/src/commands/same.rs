//! `lanq same`

use data::Line;

use crate::commands::holder::lines;
use crate::commands::{Command, CommandResult};
use crate::error::Failure;
use crate::options::{Arguments, MODEL};

pub const COMMAND: Command = Command {
    name: "same",
    usage: "CASE|TRACE CASE|TRACE [--model]",
    about: "says whether two traces have the same lines, with the same gaps between their entries",
    more: "\
A TRACE is what lanq run printed, in a file that ends in .trace, or with --csv in one that ends in
.csv. Of a case the trace of its run is taken. Lines are the same where they differ in nothing but
the entry; from each line to the next the entry has to change by the same amount. The exit status is
0 where they are the same, 1 where they are not.",
    options: &[&[MODEL]],
    run,
};

fn run(arguments: &Arguments) -> Result<CommandResult, Failure> {
    let [one, other] = arguments.exactly("two cases or traces")?;
    let (one, mut notes) = lines(arguments, Some(one))?;
    let (other, more) = lines(arguments, Some(other))?;
    notes += &more;
    let done = match arguments.machine().same(&one, &other) {
        true => CommandResult::said(format!("same: {} lines\n", one.len())),
        false => {
            CommandResult { status: 1, ..CommandResult::said(format!("different: {}\n", difference(&one, &other))) }
        }
    };
    Ok(CommandResult { notes, ..done })
}

/// The first lines that differ in another column than the entry's, else the
/// numbers of lines, else the first gaps that differ.
fn difference(one: &[Line], other: &[Line]) -> String {
    let without_entry = |line: &Line| Line { entry: 0, ..*line };
    let gap = |lines: &[Line], line: usize| i32::from(lines[line].entry) - i32::from(lines[line - 1].entry);
    let differs = one.iter().zip(other).position(|(one, other)| without_entry(one) != without_entry(other));
    let later = (1..one.len().min(other.len())).find(|line| gap(one, *line) != gap(other, *line));
    match (differs, later) {
        (Some(line), _) => format!("line {line}, counted from 0, is {} and {}", one[line], other[line]),
        (None, Some(line)) if one.len() == other.len() => {
            let (before, gaps) = (line - 1, [gap(one, line), gap(other, line)]);
            format!(
                "from line {before} to line {line}, counted from 0, the entry changes by {} and {}",
                gaps[0], gaps[1]
            )
        }
        _ => format!("{} and {} lines", one.len(), other.len()),
    }
}
