//! What one move of a text's process does: one rule for each term that moves.
//!
//! A move works on a copy: a fault throws the copy away, so that the process
//! "keeps all slots and pending values as they were before the entry" (01).

use data::{Event, Fault, Gate, Holders, Line, Side, State, Thing, Type, Value};

use super::code::number;
use super::term::{Context, Process, Rule, Term};
use super::tree::{Code, Id, Kind, Operator, Statement, Tree};
use super::unfold::{start, unfold};
use crate::owner::holder;
use crate::state::{giving_empties, hold};
use crate::step::{MOST_CHANNELS, MOST_FRAMES, MOST_PROCESSES, MOST_QUBITS};

/// All processes made, how many qubits and channels were made, and who holds them.
#[derive(Clone, Debug)]
pub struct Configuration<'t> {
    pub processes: Vec<Process<'t>>,
    pub qubits: u16,
    pub channels: u16,
    pub holders: Holders,
}

/// A move under way, of the process named.
pub struct Move<'m, 't> {
    pub tree: &'t Tree<'t>,
    pub config: Configuration<'t>,
    /// The lines written before.
    pub before: &'m [Line],
    /// The outcomes not yet used.
    pub outcomes: &'m [u8],
    pub entry: u16,
    pub process: usize,
    /// The process it meets.
    pub partner: Option<usize>,
    /// What the move writes and uses.
    pub lines: Vec<Line>,
    pub outcomes_used: usize,
}

/// Process numbers stay below 8, method numbers below 32.
fn small(number: usize) -> u16 {
    u16::try_from(number).expect("a process or method number is small")
}

/// Fault 20: "the slot read, or a value taken, stored, dropped or returned, is
/// empty (before all others, and before waiting)".
fn all_full(values: &[Value]) -> Result<(), Fault> {
    match values.contains(&Value::Empty) {
        true => Err(Fault::Empty),
        false => Ok(()),
    }
}

impl<'t> Move<'_, 't> {
    /// Takes the term on top away and does what its rule says.
    ///
    /// # Panics
    /// In a process that does not run.
    pub fn take(&mut self) -> Result<(), Fault> {
        let term = self.own().top().terms.pop().expect("a running process has a term");
        match term {
            Term::Expression(id) => self.simple(id)?,
            Term::Read(place) => {
                let value = self.own().top().variable(place);
                all_full(&[value])?;
                self.own().top().deliver(value);
            }
            Term::Context(context) => self.apply(context)?,
            Term::Declare(name) => self.own().top().declare(name),
            Term::Over => {}
            Term::Back(repetition) => self.own().top().terms.push(Term::Statement(repetition)),
            Term::EndMethod => self.end_of_method()?,
            Term::Statement(_) | Term::EndBlock => unreachable!("unfolded before"),
        }
        self.unfold(self.process);
        Ok(())
    }

    fn own(&mut self) -> &mut Process<'t> {
        &mut self.config.processes[self.process]
    }

    fn unfold(&mut self, process: usize) {
        if let Some(frame) = self.config.processes[process].frames.last_mut() {
            unfold(self.tree, frame);
        }
    }

    fn write(&mut self, process: usize, event: Event) {
        self.lines.push(event.line(self.entry, small(process)));
    }

    /// Hands the value of an expression to what waits for it.
    fn deliver(&mut self, value: Value) {
        self.own().top().deliver(value);
    }

    /// 000's OP-CONST, OP-VAR, OP-ALLOCQ and OP-ALLOCC.
    fn simple(&mut self, id: Id) -> Result<(), Fault> {
        let value = match self.tree.expressions[id].kind {
            Kind::Number(digits) => {
                let value = number(digits).expect("32 has found every number in range");
                Value::Int(i32::from(value))
            }
            Kind::Bool(value) => Value::Bool(value),
            Kind::Variable(name) => {
                let place = self.own().top().place(name.bytes);
                self.own().top().variable(place)
            }
            Kind::New(Type::Qubit) => self.new_qubit()?,
            Kind::New(_) => self.new_channel()?,
            other => unreachable!("{other:?} was unfolded before"),
        };
        all_full(&[value])?;
        self.deliver(value);
        Ok(())
    }

    /// The rule of a context whose values are all there.
    fn apply(&mut self, context: Context<'t>) -> Result<(), Fault> {
        let Context { rule, values, .. } = context;
        all_full(&values)?;
        match (rule, values.as_slice()) {
            (Rule::Forget, [_]) => {}
            (Rule::Store(place), [value]) => {
                self.own().top().store(place, *value);
                self.deliver(*value);
            }
            (Rule::Operate(operator), [Value::Int(left), Value::Int(right)]) => {
                let value = operate(operator, *left, *right)?;
                self.deliver(value);
            }
            (Rule::End(side), [Value::Channel(channel)]) => self.deliver(Value::End(*channel, side)),
            (Rule::Measure, [Value::Qubit(qubit)]) => self.measure(*qubit)?,
            (Rule::Gate(gate), qubits) => self.gate(gate, qubits)?,
            (Rule::If { then, otherwise }, [Value::Bool(test)]) => self.branch(*test, then, otherwise),
            (Rule::While(repetition), [Value::Bool(test)]) => self.repeat(*test, repetition),
            (Rule::Call(method), arguments) => self.call(method, arguments)?,
            (Rule::Fork(method), arguments) => self.fork(method, arguments)?,
            (Rule::Return, values) => self.leave(values.first().copied()),
            (Rule::Send, [Value::End(channel, side), value]) => self.send(*channel, *side, *value)?,
            (Rule::Receive, [Value::End(channel, side)]) => self.receive(*channel, *side)?,
            (rule, values) => panic!("question 5 promised other values than {values:?} for {rule:?}"),
        }
        Ok(())
    }

    // Things. "A new process, qubit or channel takes the count of those made before
    // it as its number" (01).

    fn new_qubit(&mut self) -> Result<Value, Fault> {
        let qubit = self.config.qubits;
        if qubit >= MOST_QUBITS {
            return Err(Fault::Qubits);
        }
        self.config.qubits += 1;
        hold(&mut self.config.holders, Thing::Qubit(qubit), small(self.process));
        self.write(self.process, Event::QubitMade { qubit });
        Ok(Value::Qubit(qubit))
    }

    fn new_channel(&mut self) -> Result<Value, Fault> {
        let channel = self.config.channels;
        if channel >= MOST_CHANNELS {
            return Err(Fault::Channels);
        }
        self.config.channels += 1;
        hold(&mut self.config.holders, Thing::Channel(channel), small(self.process));
        self.write(self.process, Event::ChannelMade { channel });
        Ok(Value::Channel(channel))
    }

    /// 000's OP-DOMETHODCALLQ.
    fn gate(&mut self, gate: Gate, qubits: &[Value]) -> Result<(), Fault> {
        let event = match qubits {
            [Value::Qubit(qubit)] => Event::Gate { gate, qubit: *qubit, second: None },
            [Value::Qubit(first), Value::Qubit(second)] if first == second => return Err(Fault::OneQubit),
            [Value::Qubit(first), Value::Qubit(second)] => Event::Gate { gate, qubit: *first, second: Some(*second) },
            other => panic!("question 5 promised qubits, found {other:?}"),
        };
        self.write(self.process, event);
        Ok(())
    }

    /// 000's OP-DOMEASURE. "Outcomes are supplied, not drawn." (01)
    fn measure(&mut self, qubit: u16) -> Result<(), Fault> {
        let outcome = *self.outcomes.first().ok_or(Fault::Outcomes)?;
        self.outcomes_used = 1;
        self.write(self.process, Event::Measured { qubit, outcome });
        self.deliver(Value::Int(i32::from(outcome)));
        Ok(())
    }

    // Program flow.

    /// 000's OP-IFTRUE and OP-IFFALSE.
    fn branch(&mut self, test: bool, then: &'t Statement<'t>, otherwise: Option<&'t Statement<'t>>) {
        let terms = &mut self.own().top().terms;
        match (test, otherwise) {
            (true, None) => terms.push(Term::Statement(then)),
            (true, Some(_)) => terms.extend([Term::Over, Term::Statement(then)]),
            (false, Some(otherwise)) => terms.push(Term::Statement(otherwise)),
            (false, None) => {}
        }
    }

    /// 000's OP-WHILE, with the way back as a move of its own.
    fn repeat(&mut self, test: bool, repetition: &'t Statement<'t>) {
        let Code::While { body, .. } = &repetition.kind else {
            unreachable!("a while is tested");
        };
        if test {
            self.own().top().terms.extend([Term::Back(repetition), Term::Statement(body)]);
        }
    }

    /// 000's OP-DOMETHODCALLCL.
    fn call(&mut self, method: usize, arguments: &[Value]) -> Result<(), Fault> {
        if self.own().frames.len() >= MOST_FRAMES {
            return Err(Fault::Frames);
        }
        let frame = start(self.tree, method, arguments);
        self.own().frames.push(frame);
        Ok(())
    }

    /// "Running off a non-void method's end is fault 20."
    fn end_of_method(&mut self) -> Result<(), Fault> {
        let method = self.own().top().method;
        if self.tree.methods[method].returns != Type::None {
            return Err(Fault::Empty);
        }
        self.leave(None);
        Ok(())
    }

    /// 000's OP-RETURNVOIDIMPL and OP-RETURNVALUE. "The root frame's RET finishes
    /// the process" (01).
    fn leave(&mut self, value: Option<Value>) {
        self.own().frames.pop();
        if self.own().frames.is_empty() {
            self.own().state = State::Finished;
            self.write(self.process, Event::Finished);
        } else if let Some(value) = value {
            self.deliver(value);
        }
    }

    // Giving away.

    /// 000's OP-DOFORK. "FORK gives its qubit, channel and end arguments to the new
    /// process, all taken off first, so the child has every one" (01).
    fn fork(&mut self, method: usize, arguments: &[Value]) -> Result<(), Fault> {
        let child = self.config.processes.len();
        if child >= MOST_PROCESSES {
            return Err(Fault::Processes);
        }
        let number = small(self.tree.number(method));
        let forked = Event::Forked { child: small(child), method: number, arguments: small(arguments.len()) };
        self.write(self.process, forked);
        for thing in arguments.iter().filter_map(|value| value.thing()) {
            self.give(self.process, child, thing);
        }
        let frame = start(self.tree, method, arguments);
        self.config.processes.push(Process { state: State::Running, frames: vec![frame] });
        Ok(())
    }

    /// 000's unmap, with the values of contexts.
    fn give(&mut self, giver: usize, receiver: usize, thing: Thing) {
        for frame in &mut self.config.processes[giver].frames {
            frame.empty(|value| giving_empties(thing, value));
        }
        hold(&mut self.config.holders, thing, small(receiver));
        self.write(giver, Event::Gave { to: small(receiver), thing });
    }

    /// Fault 33, "judged after fault 20 and before waiting".
    fn need_holder(&self, channel: u16, side: Side) -> Result<(), Fault> {
        match gone(&self.config, self.before, self.process, channel, side) {
            true => Err(Fault::Gone),
            false => Ok(()),
        }
    }

    fn send(&mut self, channel: u16, side: Side, value: Value) -> Result<(), Fault> {
        self.need_holder(channel, side)?;
        let receiver = self.partner.expect("send moves with a partner");
        self.config.processes[receiver].top().terms.pop();
        self.meet(self.process, receiver, channel, side, value);
        self.unfold(receiver);
        Ok(())
    }

    fn receive(&mut self, channel: u16, side: Side) -> Result<(), Fault> {
        self.need_holder(channel, side)?;
        let sender = self.partner.expect("recv moves with a partner");
        let Some(Term::Context(Context { values, .. })) = self.config.processes[sender].top().terms.pop() else {
            unreachable!("the partner stands at send");
        };
        self.meet(sender, self.process, channel, side.other(), values[1]);
        self.unfold(sender);
        Ok(())
    }

    /// 000's OP-SENDRECV, with the side that the sender has.
    fn meet(&mut self, sender: usize, receiver: usize, channel: u16, side: Side, value: Value) {
        self.write(sender, Event::Met { receiver: small(receiver), channel, side });
        match value {
            Value::Int(value) => self.write(sender, Event::Passed { value }),
            Value::Bool(value) => self.write(sender, Event::Passed { value: i32::from(value) }),
            _ => {
                let thing = value.thing().expect("a qubit is sent");
                self.give(sender, receiver, thing);
            }
        }
        self.config.processes[receiver].top().deliver(value);
    }
}

/// "SUB and LESS put the deeper first" (01): the left one. 26 out of range.
fn operate(operator: Operator, left: i32, right: i32) -> Result<Value, Fault> {
    let in_range = |value: Option<i32>| value.map(Value::Int).ok_or(Fault::IntRange);
    match operator {
        Operator::Plus => in_range(left.checked_add(right)),
        Operator::Minus => in_range(left.checked_sub(right)),
        Operator::Equals => Ok(Value::Bool(left == right)),
        Operator::Less => Ok(Value::Bool(left < right)),
    }
}

/// Paper 6: "the opposite end's holder is itself, has finished or has stopped".
/// "The holder is read from the trace."
pub fn gone(config: &Configuration, lines: &[Line], process: usize, channel: u16, side: Side) -> bool {
    let Some(holder) = holder(lines, Thing::End(channel, side.other())) else {
        return false;
    };
    let holder = usize::from(holder);
    holder == process || !config.processes[holder].runs()
}
