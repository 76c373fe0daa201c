//! 31: "when a name is undeclared, declared twice in one block (parameters stand
//! in the body's) or twice as a method, or called with a wrong argument count",
//! "at its lowest byte index".

use data::Gate;

use super::refusal::{Reason, TextRefusal};
use super::scope::Scopes;
use super::tree::{Block, Code, Id, Kind, Method, Name, Statement, Tree, Variable};

/// What is called in a statement `NAME ( .. ) ;`.
#[derive(Clone, Copy, Debug, PartialEq, Eq)]
pub enum Callee {
    /// A method, by its number in text order.
    Method(usize),
    Gate(Gate),
}

/// "the gates by name unless a method has it": what a statement's name calls.
pub fn called(tree: &Tree, name: &[u8]) -> Option<Callee> {
    let method = tree.method(name).map(Callee::Method);
    method.or_else(|| gate(name).map(Callee::Gate))
}

/// The gate of a name. "T is no gate before Paper 14" (readings, 8).
fn gate(name: &[u8]) -> Option<Gate> {
    Gate::ALL.into_iter().find(|gate| gate.name().as_bytes() == name)
}

/// How many qubits a gate takes.
pub fn gate_count(gate: Gate) -> usize {
    match gate.takes_two() {
        true => 2,
        false => 1,
    }
}

/// The refusal by 31 with the lowest place, if there is any.
pub fn check(tree: &Tree) -> Result<(), TextRefusal> {
    let mut names = Names { tree, declared: Scopes::new(), found: Vec::new() };
    names.methods_twice();
    for method in &tree.methods {
        names.method(method);
    }
    // "a missing main is 31 at the text's end"
    if tree.method(b"main").is_none() {
        names.found.push(TextRefusal::new(Reason::NoMain, tree.length));
    }
    match names.found.iter().min_by_key(|refusal| refusal.place) {
        Some(lowest) => Err(*lowest),
        None => Ok(()),
    }
}

/// The names of a text: those declared, and every 31 found.
struct Names<'t> {
    tree: &'t Tree<'t>,
    declared: Scopes<'t, ()>,
    found: Vec<TextRefusal>,
}

impl<'t> Names<'t> {
    fn no(&mut self, reason: Reason, name: Name) {
        self.found.push(TextRefusal::new(reason, name.at));
    }

    /// "the later .. of two methods" (readings, 13)
    fn methods_twice(&mut self) {
        let mut names = Scopes::new();
        names.open();
        for method in &self.tree.methods {
            if !names.declare(method.name.bytes, ()) {
                self.no(Reason::MethodTwice, method.name);
            }
        }
    }

    fn method(&mut self, method: &'t Method<'t>) {
        self.declared.open();
        self.declare(&method.parameters);
        self.inside(&method.body);
        self.declared.close();
    }

    /// "the later of two declarations" (readings, 13)
    fn declare(&mut self, variables: &'t [Variable<'t>]) {
        for variable in variables {
            if !self.declared.declare(variable.name.bytes, ()) {
                self.no(Reason::DeclaredTwice, variable.name);
            }
        }
    }

    /// A block's variables and statements, in the scope that is open.
    fn inside(&mut self, block: &'t Block<'t>) {
        self.declare(&block.variables);
        for statement in &block.statements {
            self.statement(statement);
        }
    }

    fn statement(&mut self, statement: &'t Statement<'t>) {
        match &statement.kind {
            Code::Skip => {}
            Code::Assign(name, value) => {
                self.variable(*name);
                self.expression(*value);
            }
            Code::Apply(name, arguments) => {
                self.call_or_gate(*name, arguments.len());
                self.expressions(arguments);
            }
            Code::Fork(name, arguments) => {
                self.call(*name, arguments.len());
                self.expressions(arguments);
            }
            Code::Send(end, value) => self.expressions(&[*end, *value]),
            Code::Evaluate(value) | Code::Return(value) => self.expression(*value),
            Code::If { test, then, otherwise } => {
                self.expression(*test);
                self.statement(then);
                if let Some(otherwise) = otherwise {
                    self.statement(otherwise);
                }
            }
            Code::While { test, body } => {
                self.expression(*test);
                self.statement(body);
            }
            Code::Block(block) => {
                self.declared.open();
                self.inside(block);
                self.declared.close();
            }
        }
    }

    fn expressions(&mut self, roots: &[Id]) {
        for root in roots {
            self.expression(*root);
        }
    }

    fn expression(&mut self, root: Id) {
        for id in self.tree.postfix(root) {
            let expression = &self.tree.expressions[id];
            match expression.kind {
                Kind::Variable(name) | Kind::Assign(name) => self.variable(name),
                Kind::Call(name) => self.call(name, expression.parts.len()),
                _ => {}
            }
        }
    }

    fn variable(&mut self, name: Name) {
        if self.declared.find(name.bytes).is_none() {
            self.no(Reason::Variable, name);
        }
    }

    /// "In an expression and behind fork only methods are meant" (readings, 8).
    fn call(&mut self, name: Name, count: usize) {
        match self.tree.method(name.bytes) {
            None => self.no(Reason::Method, name),
            Some(method) => self.count(Reason::Count, name, self.tree.methods[method].parameters.len(), count),
        }
    }

    fn call_or_gate(&mut self, name: Name, count: usize) {
        match called(self.tree, name.bytes) {
            Some(Callee::Gate(gate)) => self.count(Reason::GateCount, name, gate_count(gate), count),
            _ => self.call(name, count),
        }
    }

    fn count(&mut self, reason: Reason, name: Name, wanted: usize, count: usize) {
        if wanted != count {
            self.no(reason, name);
        }
    }
}
