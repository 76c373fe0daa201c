//! "Entries and processes": the schedule, waiting, the ends and whole runs.

use data::{Configuration, End, Fault, Line, Process, Refusal, Run, Side, State, Value, LINE_WORDS};

use crate::check::check;
use crate::gone::{gone, NoPartner};
use crate::state::start;
use crate::step::{self, operands_full, Effect, Entry};
use crate::table::{Op, Program};

/// What an entry that was taken did.
#[derive(Clone, Copy, Debug, PartialEq, Eq, PartialOrd, Ord)]
pub enum EntryResult {
    /// The process "has not started, has finished or stopped, or waits".
    Idle,
    /// The process stepped.
    Stepped,
    /// The process met this one.
    Met(usize),
    /// The process was stopped.
    Stopped(Fault),
}

/// How a process number stands before an entry.
#[derive(Clone, Copy, Debug, PartialEq, Eq, PartialOrd, Ord)]
pub enum Readiness {
    NotStarted,
    Finished,
    Stopped,
    Waits,
    /// Able to step or to fault.
    Steps,
    /// Able to meet this process.
    Meets(usize),
}

impl Readiness {
    /// "able to move (to step, meet or fault)"
    pub fn is_able(self) -> bool {
        matches!(self, Readiness::Steps | Readiness::Meets(_))
    }
}

/// The machine between two entries.
#[derive(Clone, Debug)]
pub struct Machine<'a> {
    pub program: &'a Program,
    pub outcomes: &'a [u8],
    /// How many lines the trace can hold.
    pub room: usize,
    pub config: Configuration,
    pub lines: Vec<Line>,
    /// Entries used, idle ones too.
    pub entries: usize,
    pub outcomes_used: usize,
}

impl<'a> Machine<'a> {
    /// "no line written and no outcome used, whatever trace and work store
    /// held". The lent trace holds its words divided by 6, rounded down.
    pub fn new(program: &'a Program, outcomes: &'a [u8], trace_words: usize) -> Machine<'a> {
        Machine {
            program,
            outcomes,
            room: trace_words / LINE_WORDS,
            config: start(program),
            lines: Vec::new(),
            entries: 0,
            outcomes_used: 0,
        }
    }

    /// "A schedule byte names the process that takes one instruction." An
    /// error is the end that keeps the entry from being taken; nothing has
    /// changed then.
    ///
    /// # Panics
    /// At an entry beyond 65,535, which question 7 rules out.
    pub fn entry(&mut self, byte: u8) -> Result<EntryResult, End> {
        if let Some(end) = self.end_reached() {
            return Err(end);
        }
        let process = usize::from(byte);
        let readiness = self.readiness(process);
        let did = match readiness {
            Readiness::Steps => self.take(process, None)?,
            Readiness::Meets(partner) => self.take(process, Some(partner))?,
            _ => EntryResult::Idle,
        };
        self.entries += 1;
        Ok(did)
    }

    /// Takes the entry of a process able to move, if its lines fit.
    fn take(&mut self, process: usize, partner: Option<usize>) -> Result<EntryResult, End> {
        let effect = self.effect(process, partner);
        if self.lines.len() + effect.lines.len() > self.room {
            return Err(End::TraceFull);
        }
        self.config = effect.config;
        self.lines.extend(effect.lines);
        self.outcomes_used += effect.outcomes_used;
        Ok(match (effect.fault, partner) {
            (Some(fault), _) => EntryResult::Stopped(fault),
            (None, Some(partner)) => EntryResult::Met(partner),
            (None, None) => EntryResult::Stepped,
        })
    }

    /// What the entry would leave.
    fn effect(&self, process: usize, partner: Option<usize>) -> Effect {
        let op = self.op_of(process).expect("a process able to move runs");
        let entry = Entry {
            program: self.program,
            outcomes: &self.outcomes[self.outcomes_used..],
            lines: &self.lines,
            number: u16::try_from(self.entries).expect("question 7 bounds the entries"),
            process,
        };
        step::take(entry, &self.config, op, partner)
    }

    /// "Before each entry, and after the last": ends 1 and 2, in this order.
    pub fn end_reached(&self) -> Option<End> {
        let mut numbers = 0..self.config.processes.len();
        if !self.config.processes.iter().any(Process::runs) {
            Some(End::AllOver)
        } else if !numbers.any(|number| self.readiness(number).is_able()) {
            Some(End::Stuck)
        } else {
            None
        }
    }

    /// Whether a process is able to move, and with whom. It follows from the
    /// configuration and, of what has gone, from the lines: being named in vain
    /// before makes no difference.
    pub fn readiness(&self, number: usize) -> Readiness {
        let Some(process) = self.config.processes.get(number) else {
            return Readiness::NotStarted;
        };
        match process.state {
            State::Finished => Readiness::Finished,
            State::Stopped(_) => Readiness::Stopped,
            State::Running => self.standing_of_running(number, process),
        }
    }

    fn standing_of_running(&self, number: usize, process: &Process) -> Readiness {
        let Some(offer) = self.offer_of(process) else {
            // Another op, or SEND or RECV with an emptied operand: fault 20
            // comes "before waiting".
            return Readiness::Steps;
        };
        // Fault 33 is "judged after fault 20 and before waiting", and "a process
        // with this fault counts as able to move".
        if gone(&self.config, &self.lines, number, offer.channel, offer.side).is_some() {
            return Readiness::Steps;
        }
        match self.partner_for(number, offer) {
            Some(partner) => Readiness::Meets(partner),
            None => Readiness::Waits,
        }
    }

    /// Why a process has nobody left to meet, where it stands at SEND or RECV
    /// with its operands present.
    pub fn gone_for(&self, number: usize) -> Option<NoPartner> {
        let offer = self.offer_of(self.config.processes.get(number)?)?;
        gone(&self.config, &self.lines, number, offer.channel, offer.side)
    }

    /// "SEND waits unless another process stands at RECV with the opposite
    /// end as its operand, and RECV likewise; a partner with an emptied
    /// operand is not ready."
    fn partner_for(&self, number: usize, offer: Offer) -> Option<usize> {
        let others = self.config.processes.iter().enumerate();
        let mut others = others.filter(|(other, _)| *other != number);
        let partner = others.find(|(_, other)| self.offer_of(other) == Some(offer.opposite()));
        partner.map(|(other, _)| other)
    }

    /// What a process at SEND or RECV with all its operands offers.
    fn offer_of(&self, process: &Process) -> Option<Offer> {
        let op = self.op_at_work(process)?;
        let frame = process.top()?;
        let sends = op == Op::Send;
        let operands = match op {
            Op::Send => 2,
            Op::Receive => 1,
            _ => return None,
        };
        if !operands_full(frame, operands) {
            return None;
        }
        match frame.pending[frame.pending.len() - operands] {
            Value::End(channel, side) => Some(Offer { sends, channel, side }),
            other => panic!("question 5 promised a channel end, found {other:?}"),
        }
    }

    /// The instruction that a process stands at, while it runs.
    pub fn op_of(&self, number: usize) -> Option<Op> {
        self.op_at_work(self.config.processes.get(number)?)
    }

    fn op_at_work(&self, process: &Process) -> Option<Op> {
        if !process.runs() {
            return None;
        }
        let frame = process.top()?;
        Some(self.program.op(frame.method, frame.place))
    }
}

/// One half of a meeting.
#[derive(Clone, Copy, Debug, PartialEq, Eq)]
struct Offer {
    sends: bool,
    channel: u16,
    side: Side,
}

impl Offer {
    /// The half it meets: the other op, the same channel, the opposite end.
    fn opposite(self) -> Offer {
        Offer { sends: !self.sends, channel: self.channel, side: self.side.other() }
    }
}

/// Puts the questions and runs the program, or refuses it. Lengths are in
/// words.
pub fn check_and_run(
    program: &[u16],
    schedule: &[u8],
    outcomes: &[u8],
    trace_len: usize,
    work_len: usize,
) -> Result<Run, Refusal> {
    let program = check(program, schedule, outcomes, work_len)?;
    Ok(run(&program, schedule, outcomes, trace_len))
}

/// Runs a checked program on a schedule of at most 65,535 bytes.
pub fn run(program: &Program, schedule: &[u8], outcomes: &[u8], trace_words: usize) -> Run {
    let mut machine = Machine::new(program, outcomes, trace_words);
    let end = run_to_end(&mut machine, schedule);
    Run {
        end,
        entries: machine.entries,
        lines: machine.lines,
        outcomes: machine.outcomes_used,
        configuration: machine.config,
    }
}

/// Asks for the ends in their order: 1, 2, 0, 3. Ends 1 and 2 come before
/// the schedule's, hence once more after the last entry.
fn run_to_end(machine: &mut Machine, schedule: &[u8]) -> End {
    for byte in schedule {
        if let Err(end) = machine.entry(*byte) {
            return end;
        }
    }
    machine.end_reached().unwrap_or(End::ScheduleUsed)
}
