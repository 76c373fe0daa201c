//! `lanq run`

use crate::case_refusal::CaseRefusal;
use crate::commands::{schedule_note, Command, CommandResult};
use crate::error::Failure;
use crate::input::case::CaseOptions;
use crate::options::{flag, Arguments, Opt, INPUTS, RUN};
use crate::report::{case_json, csv, file_json, Detail};

pub const COMMAND: Command = Command {
    name: "run",
    usage: "CASE [--json | --csv] [options]",
    about: "checks and runs a case, and prints its trace",
    more: "\
Prints the lines and the end as the printing program does: entry, process, kind, a, b, c, with -
for an unused column, and last the end, the entries used, the lines written and the outcomes used.",
    options: &[OPTIONS, INPUTS, RUN],
    run,
};

const OPTIONS: &[Opt] = &[
    flag("--json", "print one JSON object with the answer, the trace and the final configuration"),
    flag("--csv", "print the trace with commas and a line of names"),
];

fn run(arguments: &Arguments) -> Result<CommandResult, Failure> {
    let given = arguments.one_case()?;
    match (arguments.has("--json"), arguments.has("--csv")) {
        (true, true) => Err(Failure::Call("--json and --csv exclude each other".to_string())),
        (true, false) => json(&given),
        (false, true) => plain(&given, |run| csv(&run.lines)),
        (false, false) => plain(&given, |run| {
            let lines: String = run.lines.iter().map(|line| format!("{line}\n")).collect();
            format!("{lines}{}\n", run.answer())
        }),
    }
}

/// A text of the run; a refusal is printed as the printing program does.
fn plain(given: &CaseOptions, text: impl Fn(&data::Run) -> String) -> Result<CommandResult, Failure> {
    let ran = given.case().and_then(|case| given.run(&case).map(|run| CommandResult::of_case(&case, text(&run))));
    match ran {
        Err(Failure::Refused(refused)) => Ok(refusal(&refused, format!("{}\n", refused.refusal))),
        other => other,
    }
}

fn json(given: &CaseOptions) -> Result<CommandResult, Failure> {
    let case = match given.case() {
        Err(Failure::Refused(refused)) => {
            let object = file_json(&refused.name, given.machine, &refused);
            return Ok(refusal(&refused, format!("{object}\n")));
        }
        case => case?,
    };
    let object =
        |result| format!("{}\n", case_json(&case.name, &case, given.machine, given.room, result, Detail::Whole));
    match given.run(&case) {
        Ok(run) => Ok(CommandResult::of_case(&case, object(Ok(&run)))),
        Err(Failure::Refused(refused)) => {
            let done = refusal(&refused, object(Err(&refused)));
            Ok(CommandResult { notes: schedule_note(&case) + &done.notes, ..done })
        }
        Err(failure) => Err(failure),
    }
}

fn refusal(refused: &CaseRefusal, out: String) -> CommandResult {
    CommandResult { out: out.into_bytes(), notes: refused.to_string(), status: 1 }
}
