//! The commands. A further one is one more row of [`COMMANDS`].

mod asm;
mod batch;
mod check;
mod explain;
mod holder;
mod list;
mod run;
mod same;
mod timeline;
mod translate;

use crate::error::Failure;
use crate::input::case::Case;
use crate::options::{Arguments, Opt};
use crate::report::VERSION;

/// A command of `lanq`.
#[derive(Debug)]
pub struct Command {
    pub name: &'static str,
    /// What stands after the name.
    pub usage: &'static str,
    /// What it does, in one line.
    pub about: &'static str,
    /// What else there is to say.
    pub more: &'static str,
    pub options: &'static [&'static [Opt]],
    pub run: fn(&Arguments) -> Result<CommandResult, Failure>,
}

pub static COMMANDS: &[Command] = &[
    run::COMMAND,
    check::COMMAND,
    explain::COMMAND,
    timeline::COMMAND,
    holder::COMMAND,
    same::COMMAND,
    asm::COMMAND,
    list::COMMAND,
    translate::COMMAND,
    batch::COMMAND,
];

/// What a command leaves.
#[derive(Clone, Debug, Default, PartialEq, Eq)]
pub struct CommandResult {
    /// For standard output.
    pub out: Vec<u8>,
    /// For standard error.
    pub notes: String,
    /// The exit status.
    pub status: u8,
}

impl CommandResult {
    fn said(out: impl Into<Vec<u8>>) -> CommandResult {
        CommandResult { out: out.into(), ..CommandResult::default() }
    }

    /// With what is to be said of how the case was scheduled.
    fn of_case(case: &Case, out: impl Into<Vec<u8>>) -> CommandResult {
        CommandResult { notes: schedule_note(case), ..CommandResult::said(out) }
    }
}

/// A made schedule as it can be given, or that there is none.
fn schedule_note(case: &Case) -> String {
    let name = &case.name;
    match (&case.made, case.unscheduled) {
        (Some(written), _) => format!("{name}: made --schedule '{written}'\n"),
        (None, true) => {
            format!("{name}: there is no schedule, so no entry is run; --schedule until-stuck makes one\n")
        }
        _ => String::new(),
    }
}

/// Does what the words of a call ask for.
pub fn call(words: &[String]) -> CommandResult {
    let (name, rest) = match words.split_first() {
        None => return failed(None, Failure::Call("wants a command".to_string())),
        Some((name, rest)) => (name.as_str(), rest),
    };
    if ["help", "--help", "-h"].contains(&name) {
        return help(rest);
    }
    if ["version", "--version"].contains(&name) && rest.is_empty() {
        return CommandResult::said(format!("lanq {VERSION}\n"));
    }
    let Some(command) = COMMANDS.iter().find(|command| command.name == name) else {
        return failed(None, Failure::Call(format!("no command {name}")));
    };
    if rest.iter().any(|word| word == "--help") {
        return CommandResult::said(command_help(command));
    }
    let options: Vec<&Opt> = command.options.iter().copied().flatten().collect();
    let done = Arguments::read(rest, &options).and_then(|arguments| (command.run)(&arguments));
    done.unwrap_or_else(|failure| failed(Some(command), failure))
}

/// What is said of a failure, and its exit status.
fn failed(command: Option<&Command>, failure: Failure) -> CommandResult {
    match failure {
        Failure::Call(why) => {
            let name = command.map(|command| format!(" {}", command.name)).unwrap_or_default();
            let usage =
                command.map_or_else(overview, |command| format!("usage: lanq {} {}\n", command.name, command.usage));
            CommandResult { notes: format!("lanq{name}: {why}\n{usage}"), status: 2, ..CommandResult::default() }
        }
        Failure::Refused(refused) => {
            CommandResult { notes: refused.to_string(), status: 1, ..CommandResult::default() }
        }
        Failure::Said(why) => CommandResult { notes: format!("{why}\n"), status: 1, ..CommandResult::default() },
    }
}

fn help(words: &[String]) -> CommandResult {
    match words {
        [] => CommandResult::said(overview()),
        [name] => match COMMANDS.iter().find(|command| command.name == name) {
            Some(command) => CommandResult::said(command_help(command)),
            None => failed(None, Failure::Call(format!("no command {name}"))),
        },
        _ => failed(None, Failure::Call("help wants one command".to_string())),
    }
}

/// All commands, one line each.
fn overview() -> String {
    let mut text = "\
usage: lanq COMMAND ...

A CASE is a program with its schedule and outcomes: a LanQ text (.lanq, these in .lanq.run beside
it), a text of the assembler (.lqa), an input file of the printing program (.bin), or a directory
with program.lanq, program.lqa or program.bin, schedule.txt and outcomes.txt. Options give each part
in place of the case's own.

"
    .to_string();
    for command in COMMANDS {
        text += &format!("    {:9} {}\n", command.name, command.about);
    }
    text += "
lanq help COMMAND says more of one, lanq version which version this is. The exit status is 0, or 1
after a refusal or an error, or 2 after a wrong call.
";
    text
}

fn command_help(command: &Command) -> String {
    let (first, rest) = command.about.split_at(1);
    let about = first.to_uppercase() + rest;
    let mut text = format!("usage: lanq {} {}\n\n{about}.\n", command.name, command.usage);
    if !command.more.is_empty() {
        text += &format!("{}\n", command.more);
    }
    let options: Vec<&Opt> = command.options.iter().copied().flatten().collect();
    if !options.is_empty() {
        text += "\n";
    }
    for option in options {
        let name = match option.value {
            Some(value) => format!("{} {value}", option.name),
            None => option.name.to_string(),
        };
        text += &format!("    {name:24} {}\n", option.about);
    }
    text
}
