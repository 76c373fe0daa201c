//! The instructions of a method, as readings, 14, set them down.

use data::program::op::*;
use data::{Side, Type};

use super::names::{called, Callee};
use super::scope::Scopes;
use super::tree::{Block, Code, Id, Kind, Method, Name, Operator, Statement, Tree, Variable};

/// An op that no table has, for `new channelEnd[T]()`: "no op makes an end"
/// (readings, 6).
const NO_OP: u16 = 0;

/// A method's translation, of any size: whether it passes a limit is asked
/// afterwards.
#[derive(Clone, Debug, Default, PartialEq, Eq)]
pub struct Translation {
    /// "parameters, then every declared variable of the method in text order,
    /// each its own ..; a method that returns a value has one slot more at the
    /// end"
    pub slots: Vec<Type>,
    pub code: Vec<(u16, usize)>,
    /// Whether a number is above 32,767.
    pub large_number: bool,
}

/// Translates a method of a tree that has neither 30 nor 31.
pub fn translate(tree: &Tree, method: &Method) -> Translation {
    let mut writer = Writer { tree, slots: Scopes::new(), made: Translation::default() };
    writer.slots.open();
    writer.declare(&method.parameters);
    writer.declare(&method.body.variables);
    // "the body: its code, no CLEAR"
    writer.statements(&method.body);
    writer.close(method.returns);
    writer.made
}

/// The value of a number's digits, where it is at most 32,767.
pub fn number(digits: &[u8]) -> Option<i16> {
    digits.iter().try_fold(0i16, |value, digit| {
        let next = value.checked_mul(10)?;
        next.checked_add(i16::from(digit - b'0'))
    })
}

/// A variable's slot, and whether the two after it are its ends.
#[derive(Clone, Copy, Debug)]
struct Slot {
    number: usize,
    withends: bool,
}

struct Writer<'t> {
    tree: &'t Tree<'t>,
    slots: Scopes<'t, Slot>,
    made: Translation,
}

impl<'t> Writer<'t> {
    fn emit(&mut self, op: u16, argument: usize) {
        self.made.code.push((op, argument));
    }

    /// Gives each variable the next slot; answers the first of them.
    fn declare(&mut self, variables: &[Variable<'t>]) -> usize {
        let first = self.made.slots.len();
        for variable in variables {
            let slot = Slot { number: self.made.slots.len(), withends: variable.withends };
            self.slots.declare(variable.name.bytes, slot);
            self.made.slots.push(variable.kind);
        }
        first
    }

    fn slot(&self, name: Name) -> Slot {
        *self.slots.find(name.bytes).expect("31 has found every name declared")
    }

    /// "At the end of every method: RET if void, else GET hole, RET, also behind
    /// a return."
    fn close(&mut self, returns: Type) {
        if returns != Type::None {
            let hole = self.made.slots.len();
            self.made.slots.push(returns);
            self.emit(GET, hole);
        }
        self.emit(RET, 0);
    }

    fn statements(&mut self, block: &Block<'t>) {
        for statement in &block.statements {
            self.statement(statement);
        }
    }

    fn statement(&mut self, statement: &Statement<'t>) {
        match &statement.kind {
            Code::Skip => {}
            Code::Assign(name, value) => self.assign(*name, *value),
            Code::Apply(name, arguments) => self.apply(*name, arguments),
            Code::Evaluate(value) => {
                self.expression(*value);
                self.emit(DROP, 0);
            }
            Code::Fork(name, arguments) => {
                self.expressions(arguments);
                self.emit(FORK, self.method_number(*name));
            }
            Code::Send(end, value) => {
                self.expressions(&[*end, *value]);
                self.emit(SEND, 0);
            }
            Code::Return(value) => {
                self.expression(*value);
                self.emit(RET, 0);
            }
            Code::If { test, then, otherwise } => self.branch(*test, then, otherwise.as_deref()),
            Code::While { test, body } => self.repetition(*test, body),
            Code::Block(block) => self.block(block),
        }
    }

    /// "a block that is not the method's body: CLEAR for each of its variables in
    /// slot order, then its code"
    fn block(&mut self, block: &Block<'t>) {
        self.slots.open();
        let first = self.declare(&block.variables);
        for slot in first..self.made.slots.len() {
            self.emit(CLEAR, slot);
        }
        self.statements(block);
        self.slots.close();
    }

    /// "assignment then DROP; `c = E;` with ends a, b declared with c: E, PUT c,
    /// END 0, PUT a, DROP, GET c, END 1, PUT b, DROP"
    fn assign(&mut self, name: Name, value: Id) {
        let slot = self.slot(name);
        self.expression(value);
        self.emit(PUT, slot.number);
        if slot.withends {
            self.emit(END, usize::from(Side::Zero.number()));
            self.emit(PUT, slot.number + 1);
            self.emit(DROP, 0);
            self.emit(GET, slot.number);
            self.emit(END, usize::from(Side::One.number()));
            self.emit(PUT, slot.number + 2);
        }
        self.emit(DROP, 0);
    }

    /// "call then DROP unless void; gate: arguments, GATE"
    fn apply(&mut self, name: Name, arguments: &[Id]) {
        self.expressions(arguments);
        match called(self.tree, name.bytes) {
            Some(Callee::Gate(gate)) => self.emit(GATE, usize::from(gate.number())),
            _ => {
                self.emit(CALL, self.method_number(name));
                if self.returns(name) != Type::None {
                    self.emit(DROP, 0);
                }
            }
        }
    }

    fn method(&self, name: Name) -> usize {
        self.tree.method(name.bytes).expect("31 has found every method")
    }

    fn returns(&self, name: Name) -> Type {
        self.tree.methods[self.method(name)].returns
    }

    fn method_number(&self, name: Name) -> usize {
        self.tree.number(self.method(name))
    }

    /// "if: E, JFALSE L, S, L:; with else: E, JFALSE L, S, JUMP K, L: T, K:"
    fn branch(&mut self, test: Id, then: &Statement<'t>, otherwise: Option<&Statement<'t>>) {
        self.expression(test);
        let to_else = self.jump_later(JFALSE);
        self.statement(then);
        let Some(otherwise) = otherwise else {
            return self.land(to_else);
        };
        let to_end = self.jump_later(JUMP);
        self.land(to_else);
        self.statement(otherwise);
        self.land(to_end);
    }

    /// "while: L: E, JFALSE K, S, JUMP L, K:"
    fn repetition(&mut self, test: Id, body: &Statement<'t>) {
        let start = self.made.code.len();
        self.expression(test);
        let to_end = self.jump_later(JFALSE);
        self.statement(body);
        self.emit(JUMP, start);
        self.land(to_end);
    }

    /// A jump whose target is set when it is known.
    fn jump_later(&mut self, op: u16) -> usize {
        self.emit(op, 0);
        self.made.code.len() - 1
    }

    fn land(&mut self, jump: usize) {
        self.made.code[jump].1 = self.made.code.len();
    }

    fn expressions(&mut self, roots: &[Id]) {
        for root in roots {
            self.expression(*root);
        }
    }

    fn expression(&mut self, root: Id) {
        for id in self.tree.postfix(root) {
            self.instruction(self.tree.expressions[id].kind);
        }
    }

    /// The instruction of an expression whose parts have theirs. "number INT;
    /// true, false BOOL; variable GET; x = E: E, PUT x; E op F: E, F,
    /// ADD/SUB/EQ/LESS; call: arguments, CALL; measure: GET q, MEAS; recv: E,
    /// RECV; new: NEWQ, NEWC T"
    fn instruction(&mut self, kind: Kind<'t>) {
        match kind {
            Kind::Number(digits) => {
                let value = number(digits);
                self.made.large_number |= value.is_none();
                self.emit(INT, value.map_or(0, |value| usize::from(value.unsigned_abs())));
            }
            Kind::Bool(value) => self.emit(BOOL, usize::from(value)),
            Kind::Variable(name) => self.emit(GET, self.slot(name).number),
            Kind::Assign(name) => self.emit(PUT, self.slot(name).number),
            Kind::Operate(operator) => self.emit(op_of(operator), 0),
            Kind::Call(name) => self.emit(CALL, self.method_number(name)),
            Kind::Measure => self.emit(MEAS, 0),
            Kind::Receive => self.emit(RECV, 0),
            Kind::New(Type::Qubit) => self.emit(NEWQ, 0),
            Kind::New(Type::Channel(carried)) => self.emit(NEWC, usize::from(carried.number())),
            Kind::New(_) => self.emit(NO_OP, 0),
        }
    }
}

fn op_of(operator: Operator) -> u16 {
    match operator {
        Operator::Plus => ADD,
        Operator::Minus => SUB,
        Operator::Equals => EQ,
        Operator::Less => LESS,
    }
}
