//! Short methods that planned programs call and fork.

use data::program::{op::*, Method};

/// Method numbers from here on name helpers while a program is planned; they
/// are replaced when the number of the other methods is known.
pub const FIRST_HELPER: u16 = 1_000;

/// What a helper does. Kinds are 01's type numbers.
#[derive(Clone, Copy, Debug, PartialEq, Eq)]
pub enum Helper {
    /// Takes a value and returns at once.
    Sink(u16),
    /// Takes an end and receives over it.
    SinkReceives(u16),
    /// Takes a qubit, puts a gate on it and measures it.
    SinkMeasures,
    /// Forks its argument away to the sink.
    Give(u16),
    /// Forks its qubit away and returns a new one.
    GiveForNew,
    /// Calls a method that forks its argument away and then returns it.
    ReturnGiven(u16),
    /// Returns its argument.
    Same(u16),
    /// Takes a value and an int, and returns at once.
    Take(u16),
    /// Sends a value of the carried type over an end.
    Send(u16),
    /// Receives over an end and returns what came.
    Receive(u16),
}

/// The helpers of a program, each written once.
#[derive(Clone, Debug, Default)]
pub struct Helpers {
    used: Vec<Helper>,
}

impl Helpers {
    /// The number that names a helper while the program is planned.
    pub fn number(&mut self, helper: Helper) -> u16 {
        let known = self.used.iter().position(|used| *used == helper);
        let index = known.unwrap_or_else(|| {
            self.used.push(helper);
            self.used.len() - 1
        });
        FIRST_HELPER + index as u16
    }

    /// Writes all helpers; writing one may ask for another.
    pub fn write(mut self) -> Vec<Method> {
        let mut sources = Vec::new();
        while sources.len() < self.used.len() {
            let helper = self.used[sources.len()];
            sources.push(self.source(helper));
        }
        sources
    }

    fn source(&mut self, helper: Helper) -> Method {
        let (return_type, parameters) = row_of(helper);
        Method { return_type, parameters: parameters.len() as u16, slots: parameters, code: self.code_of(helper) }
    }

    fn code_of(&mut self, helper: Helper) -> Vec<(u16, u16)> {
        match helper {
            Helper::Sink(_) | Helper::Take(_) => vec![(RET, 0)],
            Helper::SinkReceives(_) => vec![(GET, 0), (RECV, 0), (DROP, 0), (RET, 0)],
            Helper::SinkMeasures => {
                let gate = [(GET, 0), (GATE, 4)];
                let measure = [(GET, 0), (MEAS, 0), (DROP, 0), (RET, 0)];
                [&gate[..], &measure].concat()
            }
            Helper::Give(kind) => {
                let sink = self.number(Helper::Sink(kind));
                vec![(GET, 0), (FORK, sink), (RET, 0)]
            }
            Helper::GiveForNew => {
                let sink = self.number(Helper::SinkMeasures);
                vec![(GET, 0), (FORK, sink), (NEWQ, 0), (RET, 0)]
            }
            Helper::ReturnGiven(kind) => {
                let give = self.number(Helper::Give(kind));
                vec![(GET, 0), (GET, 0), (CALL, give), (RET, 0)]
            }
            Helper::Same(_) => vec![(GET, 0), (RET, 0)],
            Helper::Send(_) => vec![(GET, 0), (GET, 1), (SEND, 0), (RET, 0)],
            Helper::Receive(_) => vec![(GET, 0), (RECV, 0), (RET, 0)],
        }
    }
}

/// A helper's return type and parameters.
fn row_of(helper: Helper) -> (u16, Vec<u16>) {
    match helper {
        Helper::Sink(kind) | Helper::SinkReceives(kind) | Helper::Give(kind) => (0, vec![kind]),
        Helper::SinkMeasures => (0, vec![3]),
        Helper::GiveForNew => (3, vec![3]),
        Helper::ReturnGiven(kind) | Helper::Same(kind) => (kind, vec![kind]),
        Helper::Take(kind) => (0, vec![kind, 1]),
        Helper::Send(carried) => (0, vec![32 + carried, carried]),
        Helper::Receive(carried) => (carried, vec![32 + carried]),
    }
}
