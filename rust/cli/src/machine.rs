//! Which machine runs a case: the proved library or, where it was asked for by
//! name, the model.

use data::{Line, LookUp, Question, Refusal, Run, LINE_WORDS, WORK_WORDS};
use lanq::{Program, Trace};

/// The machine that is asked.
#[derive(Clone, Copy, Debug, Default, PartialEq, Eq)]
pub enum Machine {
    #[default]
    Proved,
    Model,
}

impl Machine {
    /// Its name in what is written.
    pub fn name(self) -> &'static str {
        match self {
            Machine::Proved => "proved",
            Machine::Model => "model",
        }
    }

    /// The table of a LanQ text.
    pub fn translate(self, text: &[u8]) -> Result<Vec<u16>, Refusal> {
        match self {
            Machine::Proved => Program::from_text(text).map(|program| program.words().to_vec()),
            Machine::Model => model::text::translate(text).map_err(|refusal| {
                let question = Question::read(refusal.number).expect("the model refuses by a question");
                Refusal::new(question, refusal.place)
            }),
        }
    }

    /// Puts the questions.
    pub fn check(self, program: &[u16], schedule: &[u8], outcomes: &[u8]) -> Result<(), Refusal> {
        match self {
            Machine::Proved => lanq::check_in(program, schedule, outcomes, WORK_WORDS),
            Machine::Model => model::check(program, schedule, outcomes, WORK_WORDS).map(|_| ()),
        }
    }

    /// Who holds a qubit by the first `k` lines.
    pub fn holder(self, lines: &[Line], k: usize, qubit: u16) -> LookUp {
        match self {
            Machine::Proved => lanq::holder(lines, k, qubit),
            Machine::Model => model::lookup::look_up(lines.words(), k, qubit),
        }
    }

    /// Whether two traces have the same lines, with the same gaps between their
    /// entries.
    pub fn same(self, one: &[Line], other: &[Line]) -> bool {
        match self {
            Machine::Proved => lanq::same_lines(one, other),
            Machine::Model => model::lookup::same_lines(one.words(), other.words()),
        }
    }
}

/// A machine with the buffers that it is lent, for one run after the other.
#[derive(Debug)]
pub struct Runner {
    machine: Machine,
    trace: Vec<u16>,
    work: Vec<u32>,
}

impl Runner {
    /// A trace of so many lines, or one that holds whatever a run of so many
    /// entries writes.
    pub fn new(machine: Machine, room: Option<usize>, entries: usize) -> Runner {
        let lines = room.unwrap_or(lanq::most_lines(entries));
        Runner { machine, trace: vec![0; LINE_WORDS * lines], work: vec![0; WORK_WORDS] }
    }

    /// Puts the questions and runs the program.
    pub fn run(&mut self, program: &[u16], schedule: &[u8], outcomes: &[u8]) -> Result<Run, Refusal> {
        let Runner { machine, trace, work } = self;
        if *machine == Machine::Model {
            return model::check_and_run(program, schedule, outcomes, trace.len(), work.len());
        }
        let answer = lanq::run_in(program, schedule, outcomes, trace, work)?;
        Ok(lanq::left(answer, trace, work))
    }

    /// Puts the questions and runs a LanQ text, the model by its table.
    pub fn run_text(&mut self, text: &[u8], schedule: &[u8], outcomes: &[u8]) -> Result<Run, Refusal> {
        let Runner { machine, trace, work } = self;
        if *machine == Machine::Model {
            return self.run(&Machine::Model.translate(text)?, schedule, outcomes);
        }
        let answer = lanq::run_text(text, schedule, outcomes, trace, work)?;
        Ok(lanq::left(answer, trace, work))
    }
}
