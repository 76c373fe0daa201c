//! What one instruction does to the configuration.
//!
//! A step works on a copy: a fault throws the copy away, so that the process
//! "keeps all slots and pending values as they were before the entry".

use data::{Configuration, Event, Fault, Frame, Gate, Line, Process, Side, State, Thing, Type, Value};

use crate::gone::gone;
use crate::state::{give, hold, start_frame, start_process};
use crate::table::{Op, Program};

/// "channel beyond 16"
pub const MOST_CHANNELS: u16 = 16;
/// "qubit beyond 32"
pub const MOST_QUBITS: u16 = 32;
/// "process beyond 8"
pub const MOST_PROCESSES: usize = 8;
/// "frame beyond 8"
pub const MOST_FRAMES: usize = 8;

/// What an entry leaves.
#[derive(Clone, Debug, PartialEq, Eq)]
pub struct Effect {
    pub config: Configuration,
    pub lines: Vec<Line>,
    pub outcomes_used: usize,
    pub fault: Option<Fault>,
}

/// Where an entry happens: the program, the outcomes not yet used, the lines
/// written so far, the entry's number and the process named.
#[derive(Clone, Copy, Debug)]
pub struct Entry<'a> {
    pub program: &'a Program,
    pub outcomes: &'a [u8],
    pub lines: &'a [Line],
    pub number: u16,
    pub process: usize,
}

/// Takes the instruction of a process that is able to move. The partner is
/// the process it meets, at SEND and RECV with operands present.
pub fn take(entry: Entry, config: &Configuration, op: Op, partner: Option<usize>) -> Effect {
    let mut step = Step::new(entry, config);
    match step.execute(op, partner) {
        Ok(()) => Effect { config: step.config, lines: step.lines, outcomes_used: step.outcomes_used, fault: None },
        Err(fault) => stop(entry, config, fault),
    }
}

/// "Faults stop the process, which keeps all slots and pending values as they
/// were before the entry, and use no outcome". The place stays too.
fn stop(entry: Entry, config: &Configuration, fault: Fault) -> Effect {
    let mut config = config.clone();
    config.processes[entry.process].state = State::Stopped(fault);
    let line = Event::Stopped { fault }.line(entry.number, number_of(entry.process));
    Effect { config, lines: vec![line], outcomes_used: 0, fault: Some(fault) }
}

/// Process numbers stay below 8, method numbers below 32.
fn number_of(index: usize) -> u16 {
    u16::try_from(index).expect("a process or method number is small")
}

/// A step under way, on its own copy of the configuration.
struct Step<'a> {
    entry: Entry<'a>,
    config: Configuration,
    lines: Vec<Line>,
    outcomes_used: usize,
}

impl<'a> Step<'a> {
    fn new(entry: Entry<'a>, config: &Configuration) -> Step<'a> {
        Step { entry, config: config.clone(), lines: Vec::new(), outcomes_used: 0 }
    }

    /// The table of ops. The place moves on first; jumps set it anew.
    fn execute(&mut self, op: Op, partner: Option<usize>) -> Result<(), Fault> {
        self.top().place += 1;
        match op {
            Op::Int(value) => self.push(Value::Int(i32::from(value))),
            Op::Bool(value) => self.push(Value::Bool(value)),
            Op::Get(slot) => self.get(slot)?,
            Op::Put(slot) => self.put(slot)?,
            Op::Drop => {
                self.pop()?;
            }
            Op::Clear(slot) => self.top().slots[slot] = Value::Empty,
            Op::NewQubit => self.new_qubit()?,
            Op::NewChannel(_) => self.new_channel()?,
            Op::End(side) => self.end(side)?,
            Op::Gate(gate) => self.gate(gate)?,
            Op::Measure => self.measure()?,
            Op::Call(method) => self.call(method)?,
            Op::Return => self.ret()?,
            Op::Fork(method) => self.fork(method)?,
            Op::Send => self.send(partner)?,
            Op::Receive => self.receive(partner)?,
            Op::Jump(target) => self.jump(target),
            Op::JumpFalse(target) => self.jump_false(target)?,
            Op::Add => self.arithmetic(i32::checked_add)?,
            Op::Sub => self.arithmetic(i32::checked_sub)?,
            Op::Equal => self.compare(|deeper, upper| deeper == upper)?,
            Op::Less => self.compare(|deeper, upper| deeper < upper)?,
            Op::Not => self.not()?,
        }
        Ok(())
    }

    // The process named, and its pending values.

    fn process(&mut self) -> &mut Process {
        &mut self.config.processes[self.entry.process]
    }

    fn top(&mut self) -> &mut Frame {
        top_of(self.process())
    }

    fn push(&mut self, value: Value) {
        self.top().pending.push(value);
    }

    /// Takes the top value; fault 20 where it is empty.
    fn pop(&mut self) -> Result<Value, Fault> {
        pop_from(self.top())
    }

    fn pop_int(&mut self) -> Result<i32, Fault> {
        match self.pop()? {
            Value::Int(value) => Ok(value),
            other => wrong_type("int", other),
        }
    }

    fn pop_bool(&mut self) -> Result<bool, Fault> {
        match self.pop()? {
            Value::Bool(value) => Ok(value),
            other => wrong_type("boolean", other),
        }
    }

    fn pop_qubit(&mut self) -> Result<u16, Fault> {
        match self.pop()? {
            Value::Qubit(number) => Ok(number),
            other => wrong_type("qubit", other),
        }
    }

    fn pop_channel(&mut self) -> Result<u16, Fault> {
        match self.pop()? {
            Value::Channel(number) => Ok(number),
            other => wrong_type("channel", other),
        }
    }

    /// "its P arguments off, last on top": in their order, each full.
    fn pop_arguments(&mut self, method: usize) -> Result<Vec<Value>, Fault> {
        let count = self.entry.program.methods[method].row.parameters;
        let arguments: Result<Vec<Value>, Fault> = (0..count).map(|_| self.pop()).collect();
        let mut arguments = arguments?;
        arguments.reverse();
        Ok(arguments)
    }

    /// Writes a line under a process.
    fn write(&mut self, process: usize, event: Event) {
        let line = event.line(self.entry.number, number_of(process));
        self.lines.push(line);
    }

    /// Writes a line under the process named.
    fn write_own(&mut self, event: Event) {
        self.write(self.entry.process, event);
    }

    // Ops 3 and 4: slots.

    fn get(&mut self, slot: usize) -> Result<(), Fault> {
        match self.top().slots[slot] {
            Value::Empty => Err(Fault::Empty),
            value => {
                self.push(value);
                Ok(())
            }
        }
    }

    /// "store the top, leave it on top"
    fn put(&mut self, slot: usize) -> Result<(), Fault> {
        let value = self.pop()?;
        self.top().slots[slot] = value;
        self.push(value);
        Ok(())
    }

    // Ops 7 to 11: things. "A new process, qubit or channel takes the count
    // of those made before it as its number".

    fn new_qubit(&mut self) -> Result<(), Fault> {
        let number = self.config.qubits;
        if number >= MOST_QUBITS {
            return Err(Fault::Qubits);
        }
        self.config.qubits += 1;
        self.hold(self.entry.process, Thing::Qubit(number));
        self.push(Value::Qubit(number));
        self.write_own(Event::QubitMade { qubit: number });
        Ok(())
    }

    fn new_channel(&mut self) -> Result<(), Fault> {
        let number = self.config.channels;
        if number >= MOST_CHANNELS {
            return Err(Fault::Channels);
        }
        self.config.channels += 1;
        self.hold(self.entry.process, Thing::Channel(number));
        self.push(Value::Channel(number));
        self.write_own(Event::ChannelMade { channel: number });
        Ok(())
    }

    /// Stores the holder of what was made or given.
    fn hold(&mut self, process: usize, thing: Thing) {
        hold(&mut self.config.holders, thing, number_of(process));
    }

    /// "channel off, that end on"
    fn end(&mut self, side: Side) -> Result<(), Fault> {
        let channel = self.pop_channel()?;
        self.push(Value::End(channel, side));
        Ok(())
    }

    /// "one qubit off for 1 to 5, else two"; 27 for twice the same.
    fn gate(&mut self, gate: Gate) -> Result<(), Fault> {
        let upper = self.pop_qubit()?;
        if !gate.takes_two() {
            self.write_own(Event::Gate { gate, qubit: upper, second: None });
            return Ok(());
        }
        let deeper = self.pop_qubit()?;
        if deeper == upper {
            return Err(Fault::OneQubit);
        }
        self.write_own(Event::Gate { gate, qubit: deeper, second: Some(upper) });
        Ok(())
    }

    /// "qubit off, next outcome on as int". No click is an outcome like the
    /// others: "MEAS pushes 2 and the line says 2".
    fn measure(&mut self) -> Result<(), Fault> {
        let qubit = self.pop_qubit()?;
        let outcome = self.next_outcome()?;
        self.push(Value::Int(i32::from(outcome)));
        self.write_own(Event::Measured { qubit, outcome });
        Ok(())
    }

    /// "The next-outcome routine promises 0, 1 or 2": question 6 has let no
    /// other byte pass.
    fn next_outcome(&mut self) -> Result<u8, Fault> {
        let next = self.entry.outcomes.get(self.outcomes_used);
        let outcome = *next.ok_or(Fault::Outcomes)?;
        self.outcomes_used += 1;
        Ok(outcome)
    }

    // Ops 12 to 14: frames and processes.

    fn call(&mut self, method: usize) -> Result<(), Fault> {
        let arguments = self.pop_arguments(method)?;
        if self.process().frames.len() >= MOST_FRAMES {
            return Err(Fault::Frames);
        }
        let frame = start_frame(self.entry.program, method, &arguments);
        self.process().frames.push(frame);
        Ok(())
    }

    /// "return value off unless void; the frame goes". "The root frame's RET
    /// finishes the process", and what it returns is discarded.
    fn ret(&mut self) -> Result<(), Fault> {
        let method = self.top().method;
        let returned = match self.entry.program.methods[method].row.return_type {
            Type::None => None,
            _ => Some(self.pop()?),
        };
        self.process().frames.pop();
        if self.process().frames.is_empty() {
            self.process().state = State::Finished;
            self.write_own(Event::Finished);
        } else if let Some(value) = returned {
            self.push(value);
        }
        Ok(())
    }

    /// "FORK starts such a frame in a new process". The arguments are "all
    /// taken off first, so the child has every one".
    fn fork(&mut self, method: usize) -> Result<(), Fault> {
        let arguments = self.pop_arguments(method)?;
        let child = self.config.processes.len();
        if child >= MOST_PROCESSES {
            return Err(Fault::Processes);
        }
        self.write_own(Event::Forked {
            child: number_of(child),
            method: number_of(method),
            arguments: number_of(arguments.len()),
        });
        for thing in arguments.iter().filter_map(|value| value.thing()) {
            self.give(self.entry.process, child, thing);
        }
        let child = start_process(self.entry.program, method, &arguments);
        self.config.processes.push(child);
        Ok(())
    }

    /// Empties the thing in the giver, stores its new holder and writes the kind
    /// 6 line.
    fn give(&mut self, giver: usize, receiver: usize, thing: Thing) {
        give(&mut self.config.processes[giver], thing);
        self.hold(receiver, thing);
        let to = number_of(receiver);
        self.write(giver, Event::Gave { to, thing });
    }

    // Ops 15 and 16: "When either is named, both move on together."

    fn send(&mut self, partner: Option<usize>) -> Result<(), Fault> {
        self.need_full(2)?;
        self.need_holder(2)?;
        let receiver = partner.expect("SEND with its operands moves with a partner");
        top_of(&mut self.config.processes[receiver]).place += 1;
        self.meet(self.entry.process, receiver)
    }

    fn receive(&mut self, partner: Option<usize>) -> Result<(), Fault> {
        self.need_full(1)?;
        self.need_holder(1)?;
        let sender = partner.expect("RECV with its operand moves with a partner");
        top_of(&mut self.config.processes[sender]).place += 1;
        self.meet(sender, self.entry.process)
    }

    /// Fault 20 where one of the top values is empty: "before all others, and
    /// before waiting".
    fn need_full(&mut self, count: usize) -> Result<(), Fault> {
        match operands_full(self.top(), count) {
            true => Ok(()),
            false => Err(Fault::Empty),
        }
    }

    /// Fault 33 where the holder of the opposite end has gone: "after fault 20
    /// and before waiting". The own end is so many values from the top.
    fn need_holder(&mut self, count: usize) -> Result<(), Fault> {
        let pending = &self.top().pending;
        let (channel, side) = match pending[pending.len() - count] {
            Value::End(channel, side) => (channel, side),
            other => wrong_type("channel end", other),
        };
        match gone(&self.config, self.entry.lines, self.entry.process, channel, side) {
            Some(_) => Err(Fault::Gone),
            None => Ok(()),
        }
    }

    /// "7 met, process the sender: receiver a, channel b, sender's side c;
    /// then a 6 line, or 8". The sender loses what it gives before the
    /// receiver has it.
    fn meet(&mut self, sender: usize, receiver: usize) -> Result<(), Fault> {
        let value = pop_from(top_of(&mut self.config.processes[sender]))?;
        let (channel, side) = pop_end(top_of(&mut self.config.processes[sender]))?;
        pop_end(top_of(&mut self.config.processes[receiver]))?;
        let met = Event::Met { receiver: number_of(receiver), channel, side };
        self.write(sender, met);
        match value.thing() {
            Some(thing) => self.give(sender, receiver, thing),
            None => self.write(sender, sent(value)),
        }
        let frame = top_of(&mut self.config.processes[receiver]);
        frame.pending.push(value);
        Ok(())
    }

    // Ops 17 to 23.

    /// A target counts "from the method's start", a place over the table.
    fn jump(&mut self, target: usize) {
        let offset = self.entry.program.methods[self.top().method].offset;
        self.top().place = offset + target;
    }

    /// "JFALSE takes a boolean, jumps on false"
    fn jump_false(&mut self, target: usize) -> Result<(), Fault> {
        if !self.pop_bool()? {
            self.jump(target);
        }
        Ok(())
    }

    /// "two ints; SUB and LESS put the deeper first"; 26 out of range.
    fn arithmetic(&mut self, work: fn(i32, i32) -> Option<i32>) -> Result<(), Fault> {
        let upper = self.pop_int()?;
        let deeper = self.pop_int()?;
        let result = work(deeper, upper).ok_or(Fault::IntRange)?;
        self.push(Value::Int(result));
        Ok(())
    }

    fn compare(&mut self, work: fn(i32, i32) -> bool) -> Result<(), Fault> {
        let upper = self.pop_int()?;
        let deeper = self.pop_int()?;
        self.push(Value::Bool(work(deeper, upper)));
        Ok(())
    }

    fn not(&mut self) -> Result<(), Fault> {
        let value = self.pop_bool()?;
        self.push(Value::Bool(!value));
        Ok(())
    }
}

/// The frame at work of a process that runs.
fn top_of(process: &mut Process) -> &mut Frame {
    let top = process.frames.last_mut();
    top.expect("a running process has a frame")
}

/// Takes the top value off; fault 20 where it is empty.
fn pop_from(frame: &mut Frame) -> Result<Value, Fault> {
    let value = frame.pending.pop();
    match value.expect("question 5 found every operand") {
        Value::Empty => Err(Fault::Empty),
        value => Ok(value),
    }
}

fn pop_end(frame: &mut Frame) -> Result<(u16, Side), Fault> {
    match pop_from(frame)? {
        Value::End(channel, side) => Ok((channel, side)),
        other => wrong_type("channel end", other),
    }
}

/// Question 5 lets no other type come here.
fn wrong_type(wanted: &str, found: Value) -> ! {
    panic!("question 5 promised a value of type {wanted}, found {found:?}")
}

/// Whether the top values, so many of them, are all there.
pub fn operands_full(frame: &Frame, count: usize) -> bool {
    let mut from_top = frame.pending.iter().rev().take(count);
    from_top.all(|value| *value != Value::Empty)
}

/// "8: the value's low and high 16 bits (two's complement; boolean 0 or 1)"
fn sent(value: Value) -> Event {
    let value = match value {
        Value::Int(value) => value,
        Value::Bool(value) => i32::from(value),
        other => wrong_type("int or boolean", other),
    };
    Event::Passed { value }
}
