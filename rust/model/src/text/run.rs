//! The run of a text, on its tree: "The table's run has the lines, counts and end
//! of the text's meaning, written as rules on the text's tree, for every schedule
//! and outcome list."

use data::{Answer, End, Event, Fault, Holders, Line, Side, State, Value, LINE_WORDS};

use super::rules::{gone, Configuration, Move};
use super::term::{Context, Process, Rule, Term};
use super::tree::Tree;
use super::unfold::start;

/// What a run of a text leaves.
#[derive(Clone, Debug, PartialEq, Eq)]
pub struct TextRun {
    pub end: End,
    /// Entries used, idle ones too.
    pub entries: usize,
    /// Outcomes used.
    pub outcomes: usize,
    pub lines: Vec<Line>,
    /// Paper 7's holders.
    pub holders: Holders,
}

impl TextRun {
    /// What the run answers.
    pub fn answer(&self) -> Answer {
        Answer { end: self.end, entries: self.entries, lines: self.lines.len(), outcomes: self.outcomes }
    }
}

/// Runs a text that is not refused, on a schedule and outcomes that are not.
pub fn run<'t>(tree: &'t Tree<'t>, schedule: &[u8], outcomes: &[u8], trace_words: usize) -> TextRun {
    let mut machine = Machine::new(tree, outcomes, trace_words);
    let end = run_to_end(&mut machine, schedule);
    TextRun {
        end,
        entries: machine.entries,
        outcomes: machine.outcomes_used,
        lines: machine.lines,
        holders: machine.config.holders,
    }
}

fn run_to_end(machine: &mut Machine, schedule: &[u8]) -> End {
    for byte in schedule {
        if let Err(end) = machine.entry(*byte) {
            return end;
        }
    }
    machine.end_reached().unwrap_or(End::ScheduleUsed)
}

/// The text's processes between two entries.
#[derive(Clone, Debug)]
pub struct Machine<'t, 'm> {
    tree: &'t Tree<'t>,
    outcomes: &'m [u8],
    room: usize,
    pub config: Configuration<'t>,
    pub lines: Vec<Line>,
    pub entries: usize,
    pub outcomes_used: usize,
}

/// One half of a meeting: who sends, and over which end.
#[derive(Clone, Copy, Debug, PartialEq, Eq)]
struct Offer {
    sends: bool,
    channel: u16,
    side: Side,
}

/// How a process stands before an entry.
#[derive(Clone, Copy, Debug, PartialEq, Eq)]
enum Readiness {
    /// It "has not started, has finished or stopped, or waits" (01).
    Idle,
    /// It steps or faults.
    Moves,
    /// It meets this one.
    Meets(usize),
}

impl<'t, 'm> Machine<'t, 'm> {
    /// "A run starts with process 0 at main's first instruction, its slots empty"
    /// (01).
    ///
    /// # Panics
    /// At a tree without main, which 31 refuses.
    pub fn new(tree: &'t Tree<'t>, outcomes: &'m [u8], trace_words: usize) -> Machine<'t, 'm> {
        let main = tree.method(b"main").expect("31 asks for main");
        let process = Process { state: State::Running, frames: vec![start(tree, main, &[])] };
        let config = Configuration { processes: vec![process], qubits: 0, channels: 0, holders: Holders::default() };
        let room = trace_words / LINE_WORDS;
        Machine { tree, outcomes, room, config, lines: Vec::new(), entries: 0, outcomes_used: 0 }
    }

    /// One entry; an error is the end that keeps it from being taken.
    pub fn entry(&mut self, byte: u8) -> Result<(), End> {
        if let Some(end) = self.end_reached() {
            return Err(end);
        }
        let process = usize::from(byte);
        match self.readiness(process) {
            Readiness::Idle => {}
            Readiness::Moves => self.take(process, None)?,
            Readiness::Meets(partner) => self.take(process, Some(partner))?,
        }
        self.entries += 1;
        Ok(())
    }

    /// Takes the move of a process, if its lines fit.
    fn take(&mut self, process: usize, partner: Option<usize>) -> Result<(), End> {
        let mut step = Move {
            tree: self.tree,
            config: self.config.clone(),
            before: &self.lines,
            outcomes: &self.outcomes[self.outcomes_used..],
            entry: u16::try_from(self.entries).expect("question 7 bounds the entries"),
            process,
            partner,
            lines: Vec::new(),
            outcomes_used: 0,
        };
        let (config, lines, used) = match step.take() {
            Ok(()) => (step.config, step.lines, step.outcomes_used),
            Err(fault) => self.stopped(step.entry, process, fault),
        };
        if self.lines.len() + lines.len() > self.room {
            return Err(End::TraceFull);
        }
        self.config = config;
        self.lines.extend(lines);
        self.outcomes_used += used;
        Ok(())
    }

    /// "Faults stop the process, which keeps all slots and pending values as they
    /// were before the entry, and use no outcome" (01).
    fn stopped(&self, entry: u16, process: usize, fault: Fault) -> (Configuration<'t>, Vec<Line>, usize) {
        let mut config = self.config.clone();
        config.processes[process].state = State::Stopped(fault);
        let number = u16::try_from(process).expect("a process number is small");
        (config, vec![Event::Stopped { fault }.line(entry, number)], 0)
    }

    /// "Before each entry, and after the last": ends 1 and 2 (01).
    pub fn end_reached(&self) -> Option<End> {
        let able = |process| self.readiness(process) != Readiness::Idle;
        if !self.config.processes.iter().any(Process::runs) {
            Some(End::AllOver)
        } else if !(0..self.config.processes.len()).any(able) {
            Some(End::Stuck)
        } else {
            None
        }
    }

    fn readiness(&self, number: usize) -> Readiness {
        let process = match self.config.processes.get(number) {
            Some(process) if process.runs() => process,
            _ => return Readiness::Idle,
        };
        let Some(offer) = offer(process) else {
            return Readiness::Moves;
        };
        if gone(&self.config, &self.lines, number, offer.channel, offer.side) {
            return Readiness::Moves;
        }
        match self.partner(number, offer) {
            Some(partner) => Readiness::Meets(partner),
            None => Readiness::Idle,
        }
    }

    /// "another process stands at RECV with the opposite end as its operand, and
    /// RECV likewise; a partner with an emptied operand is not ready" (01)
    fn partner(&self, number: usize, own: Offer) -> Option<usize> {
        let wanted = Offer { sends: !own.sends, side: own.side.other(), ..own };
        let mut others = (0..self.config.processes.len()).filter(|other| *other != number);
        others.find(|other| offer(&self.config.processes[*other]) == Some(wanted))
    }
}

/// What a process at send or recv with all its values offers.
fn offer(process: &Process) -> Option<Offer> {
    let Some(Term::Context(Context { rule, values, .. })) = process.stands_at() else {
        return None;
    };
    let sends = match rule {
        Rule::Send => true,
        Rule::Receive => false,
        _ => return None,
    };
    match values.as_slice() {
        [.., Value::Empty] => None,
        [Value::End(channel, side), ..] => Some(Offer { sends, channel: *channel, side: *side }),
        _ => None,
    }
}
