//! A refusal's reason: the rule that is broken. The library answers number and
//! place; the rule is worked out here, question by question, and a test
//! compares number and place with the library's.

mod rule;
mod table;
mod types;

pub use rule::{OperandKind, Rule};
pub(crate) use table::methods;

use data::program::op;
use data::{Question, Refusal, NO_CLICK, WORK_WORDS};

use crate::program::Program;

/// The longest schedule.
const MOST_ENTRIES: usize = 65_535;

/// A refusal with the rule that is broken at its place.
#[derive(Clone, Debug, PartialEq, Eq)]
pub struct Reason {
    pub refusal: Refusal,
    pub rule: Rule,
    /// Op and argument, of questions 4 and 5.
    pub instruction: Option<(u16, u16)>,
}

impl Reason {
    fn new(question: Question, place: usize, rule: Rule) -> Reason {
        Reason { refusal: Refusal::new(question, place), rule, instruction: None }
    }

    fn of_instruction(question: Question, place: usize, instruction: (u16, u16), rule: Rule) -> Reason {
        Reason { instruction: Some(instruction), ..Reason::new(question, place, rule) }
    }

    /// The rule in words, with the instruction as the caller writes it.
    pub fn words(&self, instruction: &str) -> String {
        self.rule.words(instruction)
    }
}

/// Number, place and rule, an instruction by its op's name and its argument.
impl std::fmt::Display for Reason {
    fn fmt(&self, f: &mut std::fmt::Formatter) -> std::fmt::Result {
        let instruction = self.instruction.map(|(number, argument)| match op::name(number) {
            Some(name) => format!("{name} {argument}"),
            None => format!("{number} {argument}"),
        });
        write!(f, "{}: {}", self.refusal, self.words(&instruction.unwrap_or_default()))
    }
}

/// Why a program, a schedule and an outcome list are refused; nothing where
/// they are accepted.
///
/// ```
/// use lanq::op::{DROP, INT, PUT, RET};
/// use lanq::{Method, Program, Question};
///
/// // Slot 0 is a qbit.
/// let code = vec![(INT, 7), (PUT, 0), (DROP, 0), (RET, 0)];
/// let program = Program::from_methods(&[Method { slots: vec![3], code, ..Method::default() }]);
/// let refusal = lanq::check(&program, &[], &[]).unwrap_err();
/// let reason = lanq::reason(&program, &[], &[]).unwrap();
/// assert_eq!(reason.refusal, refusal);
/// assert_eq!(reason.to_string(), "refused 5 1: PUT 0 wants qbit, the top is int");
/// assert_eq!(reason.words("PUT q"), "PUT q wants qbit, the top is int");
/// ```
pub fn reason(program: &Program, schedule: &[u8], outcomes: &[u8]) -> Option<Reason> {
    reason_in(program.words(), schedule, outcomes, WORK_WORDS)
}

/// The same, with a work store of `work_len` words.
pub fn reason_in(program: &[u16], schedule: &[u8], outcomes: &[u8], work_len: usize) -> Option<Reason> {
    let reason = table::reason(program);
    let reason = reason.or_else(|| outcomes_reason(outcomes));
    let reason = reason.or_else(|| schedule_reason(schedule.len()));
    reason.or_else(|| work_reason(work_len))
}

fn outcomes_reason(outcomes: &[u8]) -> Option<Reason> {
    let place = outcomes.iter().position(|byte| *byte > NO_CLICK)?;
    let rule = Rule::Outcome { byte: outcomes[place], highest: NO_CLICK };
    Some(Reason::new(Question::Outcomes, place, rule))
}

fn schedule_reason(entries: usize) -> Option<Reason> {
    let rule = Rule::ScheduleLength { entries, most: MOST_ENTRIES };
    (entries > MOST_ENTRIES).then(|| Reason::new(Question::Schedule, 0, rule))
}

fn work_reason(words: usize) -> Option<Reason> {
    let rule = Rule::WorkLength { words, least: WORK_WORDS };
    (words < WORK_WORDS).then(|| Reason::new(Question::WorkStore, 0, rule))
}
