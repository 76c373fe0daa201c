//! The questions at the door, and a refusal.

use std::fmt;

use crate::numbered;

/// A question that a refusal answers with no, by 01's number or Paper 1's.
#[derive(Clone, Copy, Debug, PartialEq, Eq, PartialOrd, Ord, Hash)]
pub enum Question {
    /// M, N and the table's length; the place is 0.
    Sizes = 1,
    /// The pairs (offset, length); the place is the method.
    Pairs = 2,
    /// The rows; the place is the method.
    Rows = 3,
    /// Ops and arguments; the place is the instruction, counted over the table.
    Instructions = 4,
    /// Types; the place is the instruction, counted over the table.
    Types = 5,
    /// The outcome list; the place is the byte's index.
    Outcomes = 6,
    /// The schedule's length; the place is 0.
    Schedule = 7,
    /// The work store's length; the place is 0.
    WorkStore = 8,
    /// The input file of the printing program; the place is 0. It is put before
    /// all others, and by programs that read such a file alone.
    File = 9,
    /// Grammar and nesting of a LanQ text (Paper 1). It and the next two are put
    /// before question 1, to texts alone; the place is a byte's index.
    Grammar = 30,
    /// A text's names and counts of arguments.
    Names = 31,
    /// The limits of a text's table; the place is that of a method's name.
    Limits = 32,
}

impl Question {
    /// All of them, by their numbers.
    pub const ALL: [Question; 12] = [
        Question::Sizes,
        Question::Pairs,
        Question::Rows,
        Question::Instructions,
        Question::Types,
        Question::Outcomes,
        Question::Schedule,
        Question::WorkStore,
        Question::File,
        Question::Grammar,
        Question::Names,
        Question::Limits,
    ];

    /// Those that are put to LanQ texts alone.
    pub const OF_TEXTS: [Question; 3] = [Question::Grammar, Question::Names, Question::Limits];

    /// 01's number of it, or Paper 1's.
    pub fn number(self) -> u16 {
        self as u16
    }

    /// What it is about, in a word or two.
    pub fn topic(self) -> &'static str {
        match self {
            Question::Sizes => "the table's sizes",
            Question::Pairs => "where methods start",
            Question::Rows => "types of slots and parameters",
            Question::Instructions => "ops and arguments",
            Question::Types => "types of operands",
            Question::Outcomes => "outcomes",
            Question::Schedule => "the schedule's length",
            Question::WorkStore => "the work store's length",
            Question::File => "the input file",
            Question::Grammar => "a text's grammar",
            Question::Names => "a text's names",
            Question::Limits => "limits of a text's table",
        }
    }

    /// The question of a number.
    pub fn read(number: u16) -> Option<Question> {
        numbered(&Question::ALL, Question::number, number)
    }
}

/// The question in words.
impl fmt::Display for Question {
    fn fmt(&self, f: &mut fmt::Formatter) -> fmt::Result {
        f.write_str(match self {
            Question::Sizes => "Are M and N in range, and has the table 2 + 20M + 2N words?",
            Question::Pairs => "Does each method start where the one before ends, none empty, and is their sum N?",
            Question::Rows => {
                "Are all types listed, with 0 to 8 parameters, none unused, and is main void without any?"
            }
            Question::Instructions => {
                "Is the op listed, its argument in range, its slot used, its target inside its method?"
            }
            Question::Types => {
                "With types alone: is every operand there and of its type, are at most 8 values pending, \
                 none after DROP, CLEAR, RET, FORK, SEND, JUMP and JFALSE and none before a jump's target, \
                 and does the method close on RET or JUMP?"
            }
            Question::Outcomes => "Is each outcome 0, 1 or 2?",
            Question::Schedule => "Has the schedule at most 65,535 entries?",
            Question::WorkStore => "Has the work store at least 8,256 words?",
            Question::File => "Is the file built as docs/LAYOUT.md says?",
            Question::Grammar => {
                "Does the text keep to the grammar, with bodies and blocks nested to 32 and channels with ends \
                 assigned as statements alone?"
            }
            Question::Names => {
                "Is every name declared, once in its block or once as a method, main among them, and called with as \
                 many arguments as it takes?"
            }
            Question::Limits => "Does the text's table pass questions 1 to 5?",
        })
    }
}

/// "A refusal gives number and place".
#[derive(Clone, Copy, Debug, PartialEq, Eq, PartialOrd, Ord, Hash)]
pub struct Refusal {
    pub question: Question,
    pub place: usize,
}

impl Refusal {
    pub fn new(question: Question, place: usize) -> Refusal {
        Refusal { question, place }
    }

    /// 01's number of the question.
    pub fn number(self) -> u16 {
        self.question.number()
    }
}

/// As the printing program prints it.
impl fmt::Display for Refusal {
    fn fmt(&self, f: &mut fmt::Formatter) -> fmt::Result {
        write!(f, "refused {} {}", self.number(), self.place)
    }
}

impl std::error::Error for Refusal {}
