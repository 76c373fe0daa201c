//! Where a text goes wrong and what was expected there; what keeps a command
//! from being done.

use std::fmt;

use crate::case_refusal::CaseRefusal;

/// A place in a text. Lines and columns count from 1, columns in characters.
#[derive(Clone, Copy, Debug, PartialEq, Eq)]
pub struct Place {
    pub line: usize,
    pub column: usize,
}

/// The start of a text.
impl Default for Place {
    fn default() -> Place {
        Place { line: 1, column: 1 }
    }
}

/// The first thing wrong in a text.
#[derive(Clone, Debug, PartialEq, Eq)]
pub struct Error {
    pub place: Place,
    pub message: String,
}

impl Error {
    pub fn at(place: Place, message: impl Into<String>) -> Error {
        let message = message.into();
        Error { place, message }
    }

    /// The message says what was expected and what stands there.
    pub fn expected(place: Place, what: &str, found: &str) -> Error {
        Error::at(place, format!("expected {what}, found `{found}`"))
    }
}

/// Line, column and message, to be put after a file's name.
impl fmt::Display for Error {
    fn fmt(&self, out: &mut fmt::Formatter) -> fmt::Result {
        let Place { line, column } = self.place;
        write!(out, "{line}:{column}: {}", self.message)
    }
}

/// Why a command was not done; printed on standard error.
#[derive(Clone, Debug, PartialEq, Eq)]
pub enum Failure {
    /// A wrong call: exit status 2.
    Call(String),
    /// The input is refused: exit status 1.
    Refused(Box<CaseRefusal>),
    /// Anything else: exit status 1.
    Said(String),
}

impl Failure {
    /// About a file, or what stands in its place.
    pub fn of(name: &str, message: impl fmt::Display) -> Failure {
        Failure::Said(format!("{name}: {message}"))
    }

    /// An error in a file's text.
    pub fn in_text(name: &str, error: &Error) -> Failure {
        Failure::Said(format!("{name}:{error}"))
    }
}
