//! Question 5: the methods read with types alone.

use data::program::{op, Method};
use data::{Gate, Question, Type};

use crate::reason::rule::{OperandKind, Rule};
use crate::reason::Reason;

/// The most values pending.
const MOST_PENDING: usize = 8;

/// The first rule that is broken in methods that pass questions 1 to 4.
pub fn reason(methods: &[Method]) -> Option<Reason> {
    let mut start = 0;
    for method in methods {
        if let Some((index, rule)) = method_rule(methods, method) {
            return Some(Reason::of_instruction(Question::Types, start + index, method.code[index], rule));
        }
        start += method.code.len();
    }
    None
}

/// The first instruction of a method at which a rule is broken.
fn method_rule(methods: &[Method], method: &Method) -> Option<(usize, Rule)> {
    let mut targets = vec![false; method.code.len()];
    for (number, argument) in &method.code {
        if matches!(*number, op::JUMP | op::JFALSE) {
            targets[usize::from(*argument)] = true;
        }
    }
    let mut reader = Reader { methods, method, pending: Vec::new() };
    let last = method.code.len() - 1;
    for (index, (number, argument)) in method.code.iter().enumerate() {
        if targets[index] && !reader.pending.is_empty() {
            return Some((index, Rule::PendingAtTarget { pending: reader.pending }));
        }
        if let Err(rule) = reader.instruction(*number, *argument) {
            return Some((index, rule));
        }
        if index == last && !matches!(*number, op::RET | op::JUMP) {
            return Some((index, Rule::NotClosed));
        }
    }
    None
}

/// A method as it is read, with the types that are pending, the lowest first.
struct Reader<'p> {
    methods: &'p [Method],
    method: &'p Method,
    pending: Vec<Type>,
}

impl Reader<'_> {
    /// Takes the operands off, puts the results on, looks at what is pending.
    fn instruction(&mut self, number: u16, argument: u16) -> Result<(), Rule> {
        self.take_and_put(number, argument)?;
        if self.pending.len() > MOST_PENDING {
            return Err(Rule::TooMany { most: MOST_PENDING });
        }
        let bare = matches!(number, op::DROP | op::CLEAR | op::RET | op::FORK | op::SEND | op::JUMP | op::JFALSE);
        match bare && !self.pending.is_empty() {
            true => Err(Rule::PendingAfter { pending: self.pending.clone() }),
            false => Ok(()),
        }
    }

    fn take_and_put(&mut self, number: u16, argument: u16) -> Result<(), Rule> {
        use Type::{Bool, Int, Qubit};
        let index = usize::from(argument);
        match number {
            op::INT => self.puts(Int),
            op::BOOL => self.puts(Bool),
            op::GET => self.puts(self.slot(index)),
            op::PUT => self.trade(&[self.slot(index)], self.slot(index))?,
            op::DROP => {
                self.take(1, &[OperandKind::Any])?;
            }
            op::NEWQ => self.puts(Qubit),
            op::NEWC => self.puts(read(16 + argument)),
            op::END => {
                // A channel's number is 16 below its end's.
                let channel = self.take(1, &[OperandKind::Channel])?;
                self.puts(read(channel[0].number() + 16));
            }
            op::GATE => {
                let count = 1 + usize::from(Gate::read(argument).is_some_and(Gate::takes_two));
                self.take(count, &[OperandKind::Type(Qubit), OperandKind::Type(Qubit)])?;
            }
            op::MEAS => self.trade(&[Qubit], Int)?,
            op::CALL => {
                let called = &self.methods[index];
                self.arguments(called)?;
                self.puts_unless_void(called);
            }
            op::FORK => self.arguments(&self.methods[index])?,
            op::RET => self.returned()?,
            op::SEND => self.send()?,
            op::RECV => {
                let end = self.take(1, &[OperandKind::End])?;
                self.puts(carried(end[0]));
            }
            op::JFALSE => {
                self.take(1, &[OperandKind::Type(Bool)])?;
            }
            op::ADD | op::SUB => self.trade(&[Int, Int], Int)?,
            op::EQ | op::LESS => self.trade(&[Int, Int], Bool)?,
            op::NOT => self.trade(&[Bool], Bool)?,
            // CLEAR and JUMP take and put nothing.
            _ => (),
        }
        Ok(())
    }

    fn slot(&self, slot: usize) -> Type {
        read(self.method.slots[slot])
    }

    fn puts(&mut self, kind: Type) {
        self.pending.push(kind);
    }

    /// Takes so many values off, of which `wanted` are asked, the top first.
    fn take(&mut self, count: usize, wanted: &[OperandKind]) -> Result<Vec<Type>, Rule> {
        if self.pending.len() < count {
            return Err(Rule::TooFew { wanted: count, pending: self.pending.len() });
        }
        for (below, (wanted, found)) in wanted.iter().zip(self.pending.iter().rev().take(count)).enumerate() {
            if !fits(*wanted, *found) {
                return Err(Rule::Operand { wanted: *wanted, below, found: *found });
            }
        }
        Ok(self.pending.split_off(self.pending.len() - count))
    }

    fn trade(&mut self, wanted: &[Type], result: Type) -> Result<(), Rule> {
        // Ops that take two take the same type twice.
        let asked: Vec<OperandKind> = wanted.iter().map(|kind| OperandKind::Type(*kind)).collect();
        self.take(wanted.len(), &asked)?;
        self.puts(result);
        Ok(())
    }

    /// The arguments of CALL and FORK, the last on top.
    fn arguments(&mut self, called: &Method) -> Result<(), Rule> {
        let of = usize::from(called.parameters);
        let given = self.take(of, &[])?;
        let mut pairs = called.slots.iter().map(|word| read(*word)).zip(given).enumerate();
        match pairs.find(|(_, (wanted, found))| wanted != found) {
            None => Ok(()),
            Some((index, (wanted, found))) => Err(Rule::CallArgument { wanted, number: index + 1, of, found }),
        }
    }

    fn puts_unless_void(&mut self, called: &Method) {
        match read(called.return_type) {
            Type::None => (),
            kind => self.puts(kind),
        }
    }

    fn returned(&mut self) -> Result<(), Rule> {
        match read(self.method.return_type) {
            Type::None => Ok(()),
            kind => self.take(1, &[OperandKind::Type(kind)]).map(|_| ()),
        }
    }

    /// An end, and above it a value that it carries.
    fn send(&mut self) -> Result<(), Rule> {
        let operands = self.take(2, &[OperandKind::Any, OperandKind::End])?;
        let (carried, found) = (carried(operands[0]), operands[1]);
        match carried == found {
            true => Ok(()),
            false => Err(Rule::Sent { carried, found }),
        }
    }
}

fn fits(wanted: OperandKind, found: Type) -> bool {
    match wanted {
        OperandKind::Any => true,
        OperandKind::Channel => matches!(found, Type::Channel(_)),
        OperandKind::End => matches!(found, Type::End(_)),
        OperandKind::Type(kind) => kind == found,
    }
}

/// The type of a word that question 3 or 4 has passed.
fn read(word: u16) -> Type {
    Type::read(word).expect("questions 3 and 4 have passed")
}

/// What an end carries.
fn carried(end: Type) -> Type {
    match end {
        Type::End(carried) => carried.as_type(),
        other => other,
    }
}
