//! `lanq holder`

use std::path::Path;

use data::{Event, Holders, Line, LookUp, Run, State, Thing};

use crate::commands::{schedule_note, Command, CommandResult};
use crate::error::{Error, Failure};
use crate::input::case::Case;
use crate::input::source::text;
use crate::input::trace::{csv, printed, CSV, PRINTED};
use crate::options::{valued, Arguments, Opt, INPUTS, RUN};

pub const COMMAND: Command = Command {
    name: "holder",
    usage: "CASE|TRACE [--qubit Q] [--lines K | --after N] [options]",
    about: "shows who holds a qubit by the first lines of a trace, or everything after an entry",
    more: "\
A TRACE is what lanq run printed, in a file that ends in .trace, or with --csv in one that ends in
.csv. Of a case the trace of its run is taken. Without --qubit all qubits made are shown, each
with the line that decides, counted from 0. With --after no trace is read: the run of a case on its
first entries has stored who holds each qubit and each channel end, and these are shown.",
    options: &[OPTIONS, INPUTS, RUN],
    run,
};

const OPTIONS: &[Opt] = &[
    valued("--qubit", "Q", "this qubit, and nothing but its holder's number or nobody"),
    valued("--lines", "K", "by the first K lines; else by all"),
    valued("--after", "N", "after the first N entries, by what the run has stored; ends too"),
];

fn run(arguments: &Arguments) -> Result<CommandResult, Failure> {
    if arguments.words.len() > 1 {
        return Err(Failure::Call("wants one case or trace".to_string()));
    }
    let qubit = arguments.number("--qubit", 0)?.map(u16::try_from).transpose();
    let qubit = qubit.map_err(|_| Failure::Call("--qubit wants a number to 65535".to_string()))?;
    if let Some(entries) = arguments.number("--after", 0)? {
        return after(arguments, entries, qubit);
    }
    let (lines, notes) = lines(arguments, arguments.words.first().map(String::as_str))?;
    let k = arguments.number("--lines", 0)?.unwrap_or(lines.len());
    let machine = arguments.machine();
    let out = match qubit {
        Some(qubit) => alone(machine.holder(&lines, k, qubit).holder),
        None => made(&lines).map(|qubit| sentence(&lines, k, qubit, machine.holder(&lines, k, qubit))).collect(),
    };
    Ok(CommandResult { notes, ..CommandResult::said(out) })
}

/// The holder's number or nobody, for other programs.
fn alone(holder: Option<u16>) -> String {
    holder.map_or("nobody\n".to_string(), |process| format!("{process}\n"))
}

/// Who holds what after so many entries, as the run on them has stored it.
fn after(arguments: &Arguments, entries: usize, qubit: Option<u16>) -> Result<CommandResult, Failure> {
    let path = arguments.words.first().map(String::as_str);
    if arguments.value("--lines").is_some() {
        return Err(Failure::Call("--lines and --after exclude each other".to_string()));
    }
    if [PRINTED, CSV].map(Some).contains(&ending(path)) {
        return Err(Failure::Call("--after wants a case, for a trace stores no holders".to_string()));
    }
    let given = arguments.given(path)?;
    let whole = given.case()?;
    let entries = entries.min(whole.schedule.len());
    let case = Case { schedule: whole.schedule[..entries].to_vec(), ..whole.clone() };
    let run = given.run(&case)?;
    let out = match qubit {
        Some(qubit) => alone(run.configuration.holders.of(Thing::Qubit(qubit))),
        None => Holders::things().filter_map(|thing| stored(&run, thing)).collect(),
    };
    Ok(CommandResult::of_case(&whole, out))
}

/// A thing that was made, its holder, and whether that one still runs.
fn stored(run: &Run, thing: Thing) -> Option<String> {
    let holder = run.configuration.holders.of(thing)?;
    let over = match run.configuration.processes.get(usize::from(holder))?.state {
        State::Running => "",
        State::Finished => ", which has finished",
        State::Stopped(_) => ", which was stopped",
    };
    Some(format!("{thing} is held by process {holder}{over}\n"))
}

/// The holder, and the line that decides: of the first `k` lines so many were
/// read, from the last one backwards.
fn sentence(lines: &[Line], k: usize, qubit: u16, LookUp { holder, read }: LookUp) -> String {
    match holder {
        Some(process) => {
            let line = k.min(lines.len()) - read;
            format!("qubit {qubit} is held by process {process}, as line {line} says: {}\n", lines[line])
        }
        None => format!("qubit {qubit} is held by nobody, lines read: {read}\n"),
    }
}

/// The qubits that the lines make.
fn made(lines: &[Line]) -> impl Iterator<Item = u16> + '_ {
    lines.iter().filter_map(|line| match line.event()? {
        Event::QubitMade { qubit } => Some(qubit),
        _ => None,
    })
}

/// The lines of a trace, or of a case's run, and what is to be said of it.
pub fn lines(arguments: &Arguments, path: Option<&str>) -> Result<(Vec<Line>, String), Failure> {
    let read: fn(&str) -> Result<Vec<Line>, Error> = match ending(path) {
        Some(PRINTED) => printed,
        Some(CSV) => csv,
        _ => {
            let given = arguments.given(path)?;
            let case = given.case()?;
            let notes = schedule_note(&case);
            return Ok((given.run(&case)?.lines, notes));
        }
    };
    let path = path.unwrap_or_default();
    let lines = read(&text(path.as_ref())?);
    lines.map(|lines| (lines, String::new())).map_err(|error| Failure::in_text(path, &error))
}

/// What a file's name ends in.
fn ending(path: Option<&str>) -> Option<&str> {
    Path::new(path?).extension()?.to_str()
}
