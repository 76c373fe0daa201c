//! The words of a call: options with their values, and the words that are no
//! options.

use std::path::PathBuf;

use crate::error::{Error, Failure};
use crate::input::case::{outcomes_file, schedule_file, CaseOptions};
use crate::input::numbers;
use crate::machine::Machine;

/// An option that a command takes.
#[derive(Clone, Copy, Debug, PartialEq, Eq)]
pub struct Opt {
    pub name: &'static str,
    /// What its value is called, where it has one.
    pub value: Option<&'static str>,
    pub about: &'static str,
}

/// An option with a value.
pub const fn valued(name: &'static str, value: &'static str, about: &'static str) -> Opt {
    Opt { name, value: Some(value), about }
}

/// An option without one.
pub const fn flag(name: &'static str, about: &'static str) -> Opt {
    Opt { name, value: None, about }
}

/// The parts of a case.
pub const INPUTS: &[Opt] = &[
    valued("--program", "FILE", "the program, in place of the case's"),
    valued("--schedule", "S", "0,0,1*5 or round-robin:N or until-stuck, in place of the case's"),
    valued("--schedule-file", "FILE", "the same, from a file"),
    valued("--outcomes", "DIGITS", "0120 or 1*20, where 2 is no click, in place of the case's"),
    valued("--outcomes-file", "FILE", "the same, from a file"),
];

/// How a case is run.
pub const RUN: &[Opt] = &[valued("--room", "LINES", "end the run with 3 where the trace would have more lines"), MODEL];

/// Asks the model in place of the proved library.
pub const MODEL: Opt = flag("--model", "ask the Rust model in place of the proved library, to compare them");

/// A call's words, read.
#[derive(Clone, Debug, Default, PartialEq, Eq)]
pub struct Arguments {
    pub words: Vec<String>,
    options: Vec<(&'static str, String)>,
}

impl Arguments {
    /// Reads the words after a command's name.
    pub fn read(words: &[String], taken: &[&Opt]) -> Result<Arguments, Failure> {
        let mut arguments = Arguments::default();
        let mut words = words.iter();
        while let Some(word) = words.next() {
            if !word.starts_with("--") {
                arguments.words.push(word.clone());
                continue;
            }
            let (name, given) = match word.split_once('=') {
                Some((name, value)) => (name, Some(value.to_string())),
                None => (word.as_str(), None),
            };
            let option = taken.iter().find(|option| option.name == name);
            let option = option.ok_or_else(|| Failure::Call(format!("no option {name}")))?;
            let value = match (option.value, given) {
                (None, None) => String::new(),
                (None, Some(_)) => return Err(Failure::Call(format!("{name} takes no value"))),
                (Some(_), Some(value)) => value,
                (Some(what), None) => {
                    let next = words.next().cloned();
                    next.ok_or_else(|| Failure::Call(format!("{name} wants its value, {what}")))?
                }
            };
            if arguments.has(option.name) && !REPEATED.contains(&option.name) {
                return Err(Failure::Call(format!("{name} is given twice")));
            }
            arguments.options.push((option.name, value));
        }
        Ok(arguments)
    }

    pub fn has(&self, name: &str) -> bool {
        self.options.iter().any(|(one, _)| *one == name)
    }

    pub fn value(&self, name: &str) -> Option<&str> {
        self.options.iter().find(|(one, _)| *one == name).map(|(_, value)| value.as_str())
    }

    /// The values of an option that may be given more than once.
    pub fn values<'a>(&'a self, name: &'a str) -> impl Iterator<Item = &'a str> {
        self.options.iter().filter(move |(one, _)| *one == name).map(|(_, value)| value.as_str())
    }

    /// A number from `least` on.
    pub fn number(&self, name: &str, least: usize) -> Result<Option<usize>, Failure> {
        let Some(text) = self.value(name) else { return Ok(None) };
        let number = text.parse().ok().filter(|number| *number >= least);
        let number = number.ok_or_else(|| Failure::Call(format!("{name} wants a number from {least} on, not {text}")));
        number.map(Some)
    }

    /// The machine that is asked.
    pub fn machine(&self) -> Machine {
        match self.has(MODEL.name) {
            true => Machine::Model,
            false => Machine::Proved,
        }
    }

    /// The words that have to stand there, and no others.
    pub fn exactly<const N: usize>(&self, what: &str) -> Result<[&str; N], Failure> {
        let words: Vec<&str> = self.words.iter().map(String::as_str).collect();
        words.try_into().map_err(|_| Failure::Call(format!("wants {what}")))
    }

    /// The case that the options give; its file or directory is a word.
    pub fn given(&self, path: Option<&str>) -> Result<CaseOptions, Failure> {
        let from_text = |name: &str, error: Error| Failure::Call(format!("{name}:{error}"));
        let schedule = self.value("--schedule").map(numbers::schedule).transpose();
        let outcomes = self.value("--outcomes").map(numbers::outcomes).transpose();
        let mut given = CaseOptions {
            path: path.map(PathBuf::from),
            program: self.value("--program").map(PathBuf::from),
            schedule: schedule.map_err(|error| from_text("--schedule", error))?,
            outcomes: outcomes.map_err(|error| from_text("--outcomes", error))?,
            room: self.number("--room", 0)?,
            machine: self.machine(),
            silent: false,
        };
        for (option, file) in [("--schedule", "--schedule-file"), ("--outcomes", "--outcomes-file")] {
            if self.has(option) && self.has(file) {
                return Err(Failure::Call(format!("{option} and {file} exclude each other")));
            }
        }
        if let Some(path) = self.value("--schedule-file") {
            given.schedule = Some(schedule_file(path.as_ref())?);
        }
        if let Some(path) = self.value("--outcomes-file") {
            given.outcomes = Some(outcomes_file(path.as_ref())?);
        }
        Ok(given)
    }

    /// The case of a command that takes one, by a word or by options alone.
    pub fn one_case(&self) -> Result<CaseOptions, Failure> {
        match (self.words.as_slice(), self.has("--program")) {
            ([path], _) => self.given(Some(path)),
            ([], true) => self.given(None),
            ([], false) => Err(Failure::Call("wants a case".to_string())),
            _ => Err(Failure::Call("wants one case".to_string())),
        }
    }
}

/// Options that may be given more than once.
const REPEATED: [&str; 1] = ["--use"];
