//! A refusal in words: the rule that is broken, and where.

use std::fmt;

use data::{Question, Refusal, WORK_WORDS};
use lanq::reason_in;

use crate::code::{Origin, Site};
use crate::error::Place;
use crate::input::case::Case;
use crate::text::place::TextPlace;

/// A refusal of a case.
#[derive(Clone, Debug, PartialEq, Eq)]
pub struct CaseRefusal {
    /// The file.
    pub name: String,
    pub refusal: Refusal,
    /// The rule that is broken.
    pub rule: String,
    pub at: RefusalPlace,
}

/// Where a rule is broken.
#[derive(Clone, Debug, PartialEq, Eq)]
pub enum RefusalPlace {
    Nowhere,
    /// In a method's pair or row.
    Method {
        method: usize,
        name: String,
        header: Option<(Place, Origin)>,
    },
    Instruction(Site),
    /// An index in the outcome list.
    Outcome(usize),
    /// In a LanQ text.
    Text(TextPlace),
}

impl CaseRefusal {
    /// A refusal that a machine has answered for a case.
    pub fn new(case: &Case, refusal: Refusal) -> CaseRefusal {
        let reason = reason_in(&case.program, &case.schedule, &case.outcomes, WORK_WORDS);
        let at = at(case, refusal);
        let instruction = match &at {
            RefusalPlace::Instruction(site) => site.text.as_str(),
            _ => "",
        };
        // The machine's number and place stand, whatever rule was found.
        let rule = reason.filter(|reason| reason.refusal == refusal);
        let rule = rule.map_or_else(|| "the rule was not found".to_string(), |reason| reason.words(instruction));
        CaseRefusal { name: case.name.clone(), refusal, rule, at }
    }

    /// Line and column, where the file has them.
    fn place(&self) -> Option<Place> {
        if let RefusalPlace::Text(at) = &self.at {
            return Some(at.place);
        }
        let written = match &self.at {
            RefusalPlace::Method { header, .. } => *header,
            RefusalPlace::Instruction(site) => site.written,
            _ => None,
        };
        written.filter(|(_, written)| *written == Origin::Text).map(|(place, _)| place)
    }
}

fn at(case: &Case, refusal: Refusal) -> RefusalPlace {
    let place = refusal.place;
    match (refusal.question, &case.code) {
        (Question::Pairs, None) => {
            RefusalPlace::Method { method: place, name: format!("method {place}"), header: None }
        }
        (Question::Pairs | Question::Rows, Some(code)) => RefusalPlace::Method {
            method: place,
            name: code.method_name(place),
            header: code.names.get(place).and_then(|names| names.header).map(|header| (header, code.written)),
        },
        (Question::Instructions | Question::Types, Some(code)) => {
            code.site(place).map_or(RefusalPlace::Nowhere, RefusalPlace::Instruction)
        }
        (Question::Outcomes, _) => RefusalPlace::Outcome(place),
        _ => RefusalPlace::Nowhere,
    }
}

impl fmt::Display for RefusalPlace {
    fn fmt(&self, f: &mut fmt::Formatter) -> fmt::Result {
        match self {
            RefusalPlace::Nowhere => Ok(()),
            RefusalPlace::Method { name, header: None, .. } => write!(f, "{name}"),
            RefusalPlace::Method { name, header: Some((place, Origin::Text)), .. } => {
                write!(f, "method {name} (line {})", place.line)
            }
            RefusalPlace::Method { name, header: Some((place, Origin::Listing)), .. } => {
                write!(f, "method {name} (line {} of the listing)", place.line)
            }
            RefusalPlace::Instruction(site) => site.fmt(f),
            RefusalPlace::Outcome(index) => write!(f, "outcome {index}, counted from 0"),
            RefusalPlace::Text(at) => at.fmt(f),
        }
    }
}

/// File, line and column, number and place, the rule; then where it is broken,
/// and the question.
impl fmt::Display for CaseRefusal {
    fn fmt(&self, f: &mut fmt::Formatter) -> fmt::Result {
        let CaseRefusal { name, refusal, rule, at } = self;
        match self.place() {
            Some(Place { line, column }) => write!(f, "{name}:{line}:{column}: ")?,
            None => write!(f, "{name}: ")?,
        }
        writeln!(f, "{refusal}: {rule}")?;
        if *at != RefusalPlace::Nowhere {
            writeln!(f, "    at {at}")?;
        }
        writeln!(f, "    question {}: {}", refusal.number(), refusal.question)
    }
}
