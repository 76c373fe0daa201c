//! A case: a program, a schedule and outcomes, from one file, from a directory
//! or from options.

use std::path::{Path, PathBuf};

use data::Run;

use crate::case_refusal::CaseRefusal;
use crate::code::Code;
use crate::error::Failure;
use crate::input::make::make;
use crate::input::numbers::{self, Schedule};
use crate::input::source::{self, Source, ASSEMBLER, LANQ, TABLE};
use crate::machine::{Machine, Runner};

/// What a directory calls its program, before the ending.
const PROGRAM: &str = "program";
const SCHEDULE_FILE: &str = "schedule.txt";
const OUTCOMES_FILE: &str = "outcomes.txt";

/// All that a run takes.
#[derive(Clone, Debug, PartialEq, Eq)]
pub struct Case {
    /// The program's file.
    pub name: String,
    pub program: Vec<u16>,
    /// The LanQ text that the program was given as.
    pub text: Option<Vec<u8>>,
    /// None where the table does not say where its methods start.
    pub code: Option<Code>,
    pub schedule: Vec<u8>,
    pub outcomes: Vec<u8>,
    /// How the schedule can be given, where it was made here.
    pub made: Option<String>,
    /// Whether no schedule was given at all.
    pub unscheduled: bool,
}

/// Where the parts of a case come from, besides the file or directory named.
#[derive(Clone, Debug, Default, PartialEq, Eq)]
pub struct CaseOptions {
    /// The case's file or directory.
    pub path: Option<PathBuf>,
    pub program: Option<PathBuf>,
    pub schedule: Option<Schedule>,
    pub outcomes: Option<Vec<u8>>,
    /// The lines that the trace holds; else whatever the run writes.
    pub room: Option<usize>,
    pub machine: Machine,
    /// Whether how far the work has come is not shown.
    pub silent: bool,
}

impl CaseOptions {
    /// Reads the case.
    pub fn case(&self) -> Result<Case, Failure> {
        let found = match &self.path {
            Some(path) if path.is_dir() => read_directory(path, self.program.is_none(), self.machine)?,
            Some(path) => {
                DirectoryParts { source: Some(source::read(path, self.machine)?), ..DirectoryParts::default() }
            }
            None => DirectoryParts::default(),
        };
        let source = match &self.program {
            Some(path) => Some(source::read(path, self.machine)?),
            None => None,
        };
        // An option goes before the directory's file, and that before what
        // stands with a program, the one named by an option first.
        let sources = [source.as_ref(), found.source.as_ref()];
        let given = self.schedule.clone().or(found.schedule);
        let stands = |part: fn(&Source) -> &Option<Vec<u8>>| sources.iter().flatten().find_map(|one| part(one).clone());
        let schedule = given.or_else(|| stands(|source| &source.schedule).map(Schedule::Entries));
        let outcomes = self.outcomes.clone().or(found.outcomes);
        let outcomes = outcomes.or_else(|| stands(|source| &source.outcomes)).unwrap_or_default();
        let Some(source) = source.or(found.source) else {
            return Err(Failure::Call("no case and no --program was given".to_string()));
        };
        self.scheduled(source, schedule, outcomes)
    }

    /// The case with its schedule, made where it was asked for so.
    fn scheduled(&self, source: Source, asked: Option<Schedule>, outcomes: Vec<u8>) -> Result<Case, Failure> {
        let Source { name, program, text, code, .. } = source;
        let unscheduled = asked.is_none();
        let mut case = Case { name, program, text, code, schedule: Vec::new(), outcomes, made: None, unscheduled };
        match asked {
            None => (),
            Some(Schedule::Entries(entries)) => case.schedule = entries,
            Some(asked) => {
                let made = make(&asked, &case, self).map_err(|why| Failure::of(&case.name, why))?;
                case.schedule = made.entries;
                case.made = Some(made.written);
            }
        }
        Ok(case)
    }

    /// Puts the questions and runs the case.
    pub fn run(&self, case: &Case) -> Result<Run, Failure> {
        let mut runner = self.runner(case);
        let ran = match &case.text {
            Some(text) => runner.run_text(text, &case.schedule, &case.outcomes),
            None => runner.run(&case.program, &case.schedule, &case.outcomes),
        };
        ran.map_err(|refusal| case.refused(refusal))
    }

    /// The machine with buffers for the case.
    pub fn runner(&self, case: &Case) -> Runner {
        Runner::new(self.machine, self.room, case.schedule.len().min(numbers::MOST_ENTRIES))
    }
}

impl Case {
    /// A refusal of the case, in words.
    pub fn refused(&self, refusal: data::Refusal) -> Failure {
        Failure::Refused(Box::new(CaseRefusal::new(self, refusal)))
    }
}

/// What a directory holds.
#[derive(Debug, Default)]
struct DirectoryParts {
    source: Option<Source>,
    schedule: Option<Schedule>,
    outcomes: Option<Vec<u8>>,
}

fn read_directory(path: &Path, needs_program: bool, machine: Machine) -> Result<DirectoryParts, Failure> {
    let name = path.display().to_string();
    let programs = [ASSEMBLER, LANQ, TABLE].map(|ending| path.join(PROGRAM).with_extension(ending));
    let mut programs = programs.into_iter().filter(|path| path.exists());
    let source = match (programs.next(), programs.next()) {
        (Some(first), Some(second)) => {
            let names = [first, second].map(|path| path.file_name().unwrap_or_default().display().to_string());
            return Err(Failure::of(&name, format!("has two programs, {} and {}", names[0], names[1])));
        }
        (Some(only), None) => Some(source::read(&only, machine)?),
        (None, _) if needs_program => {
            return Err(Failure::of(&name, format!("has no program.{ASSEMBLER}, program.{LANQ} or program.{TABLE}")));
        }
        (None, _) => None,
    };
    Ok(DirectoryParts {
        source,
        schedule: read_if_there(&path.join(SCHEDULE_FILE), schedule_file)?,
        outcomes: read_if_there(&path.join(OUTCOMES_FILE), outcomes_file)?,
    })
}

fn read_if_there<T>(path: &Path, read: fn(&Path) -> Result<T, Failure>) -> Result<Option<T>, Failure> {
    match path.exists() {
        true => read(path).map(Some),
        false => Ok(None),
    }
}

/// The schedule in a file.
pub fn schedule_file(path: &Path) -> Result<Schedule, Failure> {
    let text = source::text(path)?;
    numbers::schedule(&text).map_err(|error| Failure::in_text(&path.display().to_string(), &error))
}

/// The outcomes in a file.
pub fn outcomes_file(path: &Path) -> Result<Vec<u8>, Failure> {
    let text = source::text(path)?;
    numbers::outcomes(&text).map_err(|error| Failure::in_text(&path.display().to_string(), &error))
}

/// Whether a path can be a case: a file whose ending says so, or a directory
/// with a program or, where a program is given, with another part.
pub fn is_case(path: &Path, program_given: bool) -> bool {
    let endings = [ASSEMBLER, LANQ, TABLE];
    let mut programs = endings.iter().map(|ending| path.join(PROGRAM).with_extension(ending));
    let mut others = [SCHEDULE_FILE, OUTCOMES_FILE].iter().map(|file| path.join(file));
    match path.is_dir() {
        true => programs.any(|path| path.exists()) || (program_given && others.any(|path| path.exists())),
        false => path.extension().is_some_and(|ending| endings.iter().any(|one| ending == *one)),
    }
}
