//! What a run answers, and all that it leaves.

use std::fmt;

use crate::configuration::Configuration;
use crate::line::{Event, Line};
use crate::numbered;

/// How a run ends, by 01's number.
#[derive(Clone, Copy, Debug, PartialEq, Eq, PartialOrd, Ord, Hash)]
pub enum End {
    /// "schedule used up"
    ScheduleUsed = 0,
    /// "every process made has finished or stopped"
    AllOver = 1,
    /// "none able to move (to step, meet or fault)"
    Stuck = 2,
    /// "the lines of this entry exceed what the trace still holds"
    TraceFull = 3,
}

impl End {
    /// All of them, by their numbers.
    pub const ALL: [End; 4] = [End::ScheduleUsed, End::AllOver, End::Stuck, End::TraceFull];

    /// 01's number of it.
    pub fn number(self) -> u16 {
        self as u16
    }

    /// The end of a number.
    pub fn read(number: u16) -> Option<End> {
        numbered(&End::ALL, End::number, number)
    }
}

/// Why the run ended.
impl fmt::Display for End {
    fn fmt(&self, f: &mut fmt::Formatter) -> fmt::Result {
        f.write_str(match self {
            End::ScheduleUsed => "the schedule is used up",
            End::AllOver => "every process made has finished or stopped",
            End::Stuck => "no process is able to move",
            End::TraceFull => "the lines of the next entry exceed what the trace still holds",
        })
    }
}

/// "A run answers end, entries used (idle ones too), lines written, outcomes
/// used."
#[derive(Clone, Copy, Debug, PartialEq, Eq)]
pub struct Answer {
    pub end: End,
    /// Entries used, idle ones too.
    pub entries: usize,
    /// Lines written.
    pub lines: usize,
    /// Outcomes used.
    pub outcomes: usize,
}

/// As the printing program prints it.
impl fmt::Display for Answer {
    fn fmt(&self, f: &mut fmt::Formatter) -> fmt::Result {
        write!(f, "end {} {} {} {}", self.end.number(), self.entries, self.lines, self.outcomes)
    }
}

/// A run with all it leaves: its answer, its lines and the final
/// configuration.
#[derive(Clone, Debug, PartialEq, Eq)]
pub struct Run {
    pub end: End,
    /// Entries used, idle ones too.
    pub entries: usize,
    /// Outcomes used.
    pub outcomes: usize,
    pub lines: Vec<Line>,
    pub configuration: Configuration,
}

impl Run {
    /// What the run answers.
    pub fn answer(&self) -> Answer {
        Answer { end: self.end, entries: self.entries, lines: self.lines.len(), outcomes: self.outcomes }
    }

    /// The lines with what they say.
    pub fn events(&self) -> impl Iterator<Item = (Line, Event)> + '_ {
        self.lines.iter().filter_map(|line| Some((*line, line.event()?)))
    }

    /// The lines as the words that stand first in the trace.
    pub fn trace_words(&self) -> Vec<u16> {
        self.lines.iter().flat_map(|line| line.words()).collect()
    }
}
