//! Why slots and pending values are empty that once held something.

use std::collections::BTreeMap;
use std::fmt;

use data::{Event, Frame, Line, Thing, Value};

use crate::history::Step;

/// A slot or a pending value of a frame, counted from the lowest.
#[derive(Clone, Copy, Debug, PartialEq, Eq, PartialOrd, Ord)]
pub enum Cell {
    Slot(usize),
    Pending(usize),
}

/// What was there, and what emptied it.
#[derive(Clone, Copy, Debug, PartialEq, Eq)]
pub struct Emptying {
    pub value: Value,
    pub entry: usize,
    pub by: Cause,
}

#[derive(Clone, Copy, Debug, PartialEq, Eq)]
pub enum Cause {
    Clear,
    Giving { thing: Thing, to: u16 },
}

/// `qubit 0, given to process 1 at entry 15`
impl fmt::Display for Emptying {
    fn fmt(&self, f: &mut fmt::Formatter) -> fmt::Result {
        let Emptying { value, entry, by } = self;
        match by {
            Cause::Clear => write!(f, "{value}, cleared at entry {entry}"),
            Cause::Giving { thing, to } if Some(*thing) == value.thing() => {
                write!(f, "{value}, given to process {to} at entry {entry}")
            }
            Cause::Giving { thing: Thing::End(_, side), to } => {
                write!(f, "{value}, whose end {side} was given to process {to} at entry {entry}")
            }
            Cause::Giving { to, .. } => write!(f, "{value}, whose channel was given to process {to} at entry {entry}"),
        }
    }
}

/// The cells that are empty now and were not before, by process and frame.
#[derive(Clone, Debug, Default, PartialEq, Eq)]
pub struct EmptyCells {
    cells: BTreeMap<(usize, usize, Cell), Emptying>,
}

impl EmptyCells {
    pub fn why(&self, process: usize, frame: usize, cell: Cell) -> Option<&Emptying> {
        self.cells.get(&(process, frame, cell))
    }

    /// Takes up the next entry.
    pub fn read(&mut self, step: &Step) {
        for (number, (before, after)) in step.before.processes.iter().zip(&step.after.processes).enumerate() {
            // An entry starts or ends at most one frame of a process.
            let kept = before.frames.len().min(after.frames.len());
            self.cells.retain(|(process, frame, _), _| *process != number || *frame < kept);
            for (frame, (before, after)) in before.frames.iter().zip(&after.frames).enumerate() {
                self.frame(step, (number, frame), before, after);
            }
        }
    }

    fn frame(&mut self, step: &Step, (process, number): (usize, usize), before: &Frame, after: &Frame) {
        let pending = after.pending.len();
        self.cells.retain(|(p, f, cell), _| {
            (*p, *f) != (process, number) || !matches!(cell, Cell::Pending(i) if *i >= pending)
        });
        let slots = before.slots.iter().zip(&after.slots).enumerate().map(|(i, two)| (Cell::Slot(i), two));
        let values = before.pending.iter().zip(&after.pending).enumerate().map(|(i, two)| (Cell::Pending(i), two));
        for (cell, (before, after)) in slots.chain(values) {
            let key = (process, number, cell);
            if *after != Value::Empty {
                self.cells.remove(&key);
            } else if *before != Value::Empty {
                let by = by(step.lines, process, *before);
                self.cells.insert(key, Emptying { value: *before, entry: step.entry, by });
            }
        }
    }
}

/// What emptied a value: the giving of the thing itself, of an end of it or of
/// its channel; else CLEAR.
fn by(lines: &[Line], process: usize, value: Value) -> Cause {
    let own = lines.iter().filter(|line| usize::from(line.process) == process);
    let given: Vec<(Thing, u16)> = own
        .filter_map(|line| match line.event()? {
            Event::Gave { to, thing } => Some((thing, to)),
            _ => None,
        })
        .collect();
    let exact = given.iter().find(|(thing, _)| Some(*thing) == value.thing());
    let near = given
        .iter()
        .find(|(thing, _)| channel(Some(*thing)).is_some() && channel(Some(*thing)) == channel(value.thing()));
    exact.or(near).map_or(Cause::Clear, |(thing, to)| Cause::Giving { thing: *thing, to: *to })
}

/// The channel that a thing is or belongs to.
fn channel(thing: Option<Thing>) -> Option<u16> {
    match thing? {
        Thing::Qubit(_) => None,
        Thing::Channel(number) | Thing::End(number, _) => Some(number),
    }
}
