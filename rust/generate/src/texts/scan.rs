//! What a text has in it, from its tree.

use std::collections::BTreeMap;

use data::{Gate, Type};
use model::text::names::{called, Callee};
use model::text::tree::{Block, Code, Id, Kind, Statement, Tree};

use super::coverage::TextCoverage;
use super::mark::{Part, TextMark};

/// Marks of a tree: its methods, and all that is in them.
pub fn parts(tree: &Tree, coverage: &mut TextCoverage) {
    for (index, method) in tree.methods.iter().enumerate() {
        coverage.add(TextMark::Returned(method.returns.number()));
        for variable in &method.parameters {
            coverage.add(TextMark::Declared(variable.kind.number()));
        }
        let names: Names = method.parameters.iter().map(|parameter| (parameter.name.bytes, false)).collect();
        let mut seen = TreeScan { tree, method: index, names: vec![names], coverage };
        seen.block(&method.body);
        let ends = matches!(method.body.statements.last().map(|last| &last.kind), Some(Code::Return(_)));
        if method.returns != Type::None && !ends {
            coverage.has(Part::NoReturnAtEnd);
        }
    }
    if tree.method(b"main").is_some_and(|main| main > 0) {
        coverage.has(Part::MainNotFirst);
    }
}

/// The names of a block, and which are withends channels.
type Names<'a> = BTreeMap<&'a [u8], bool>;

/// A method's tree while it is looked at.
struct TreeScan<'a> {
    tree: &'a Tree<'a>,
    method: usize,
    names: Vec<Names<'a>>,
    coverage: &'a mut TextCoverage,
}

impl<'a> TreeScan<'a> {
    fn block(&mut self, block: &'a Block<'a>) {
        for variable in &block.variables {
            self.coverage.add(TextMark::Declared(variable.kind.number()));
            if variable.withends {
                self.coverage.has(Part::Withends);
            }
            let name = variable.name.bytes;
            let innermost = self.names.len() - 1;
            if self.names[..innermost].iter().any(|names| names.contains_key(name)) {
                self.coverage.has(Part::Shadowing);
            }
            self.names[innermost].entry(name).or_insert(variable.withends);
        }
        for statement in &block.statements {
            self.statement(statement);
        }
    }

    fn inner_block(&mut self, block: &'a Block<'a>) {
        match block.variables.is_empty() {
            true => self.coverage.has(Part::EmptyBlock),
            false => self.coverage.has(Part::BlockWithVariables),
        }
        self.names.push(Names::new());
        self.block(block);
        self.names.pop();
    }

    fn body(&mut self, body: &'a Statement<'a>) {
        if !matches!(body.kind, Code::Block(_)) {
            self.coverage.has(Part::BodyWithoutBlock);
        }
        self.statement(body);
    }

    fn statement(&mut self, statement: &'a Statement<'a>) {
        match &statement.kind {
            Code::If { test, then, otherwise } => {
                self.coverage.has(Part::If);
                self.expressions(&[*test]);
                self.body(then);
                self.otherwise(otherwise.as_deref());
            }
            Code::While { test, body } => {
                self.coverage.has(Part::While);
                self.expressions(&[*test]);
                self.body(body);
            }
            Code::Block(block) => self.inner_block(block),
            plain => self.plain(plain),
        }
    }

    /// A statement that holds no other.
    fn plain(&mut self, code: &'a Code<'a>) {
        let (part, expressions) = match code {
            Code::Assign(name, value) if self.is_withends(name.bytes) => (Part::AssignWithends, vec![*value]),
            Code::Assign(_, value) => (Part::Assign, vec![*value]),
            Code::Apply(name, arguments) => {
                self.apply(name.bytes);
                (Part::Apply, arguments.clone())
            }
            Code::Evaluate(value) => (self.evaluated(*value), vec![*value]),
            Code::Fork(_, arguments) => (Part::Fork, arguments.clone()),
            Code::Send(end, value) => (Part::Send, vec![*end, *value]),
            Code::Return(value) => match self.tree.methods[self.method].returns {
                Type::None => (Part::ReturnVoid, vec![*value]),
                _ => (Part::ReturnValue, vec![*value]),
            },
            _ => (Part::Skip, vec![]),
        };
        self.coverage.has(part);
        self.expressions(&expressions);
    }

    fn is_withends(&self, name: &[u8]) -> bool {
        self.names.iter().rev().find_map(|names| names.get(name)) == Some(&true)
    }

    fn evaluated(&self, value: Id) -> Part {
        match self.tree.expressions[value].kind {
            Kind::Measure => Part::MeasureStatement,
            _ => Part::ReceiveStatement,
        }
    }

    fn otherwise(&mut self, otherwise: Option<&'a Statement<'a>>) {
        let Some(statement) = otherwise else { return };
        self.coverage.has(Part::Else);
        if matches!(statement.kind, Code::If { .. }) {
            self.coverage.has(Part::ElseIf);
        }
        self.body(statement);
    }

    fn apply(&mut self, name: &[u8]) {
        match called(self.tree, name) {
            Some(Callee::Gate(_)) => self.coverage.has(Part::GateCall),
            Some(Callee::Method(method)) => {
                match self.tree.methods[method].returns {
                    Type::None => self.coverage.has(Part::CallVoid),
                    _ => self.coverage.has(Part::CallDropped),
                }
                if Gate::ALL.iter().any(|gate| gate.name().as_bytes() == name) {
                    self.coverage.has(Part::GateNamedMethod);
                }
                if method > self.method {
                    self.coverage.has(Part::LaterMethod);
                }
            }
            None => {}
        }
    }

    fn expressions(&mut self, roots: &[Id]) {
        for id in roots.iter().flat_map(|root| self.tree.postfix(*root)) {
            let expression = &self.tree.expressions[id];
            let part = match expression.kind {
                Kind::Number(_) => Part::Number,
                Kind::Bool(_) => Part::Bool,
                Kind::Variable(_) => Part::Variable,
                Kind::Assign(_) => Part::AssignInside,
                Kind::Operate(operator) => {
                    self.operands(expression.parts[0], expression.parts[1]);
                    Part::Operate(operator)
                }
                Kind::Call(_) => Part::CallInside,
                Kind::Measure => Part::Measure,
                Kind::Receive => Part::Receive,
                Kind::New(Type::Qubit) => Part::NewQubit,
                Kind::New(Type::Channel(_)) => Part::NewChannel,
                Kind::New(_) => Part::NewEnd,
            };
            self.coverage.has(part);
        }
    }

    fn operands(&mut self, left: Id, right: Id) {
        let expression = |id: Id| &self.tree.expressions[id];
        if matches!(expression(right).kind, Kind::New(_)) {
            self.coverage.has(Part::NewAsOperand);
        }
        let assigned = expression(left);
        let ends_new = matches!(assigned.kind, Kind::Assign(_))
            && matches!(self.tree.expressions[assigned.parts[0]].kind, Kind::New(_));
        if ends_new {
            self.coverage.has(Part::AssignedNewAsOperand);
        }
    }
}
