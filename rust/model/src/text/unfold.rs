//! Terms unfolded until one is on top that moves.
//!
//! Document 000 has rules that only order the evaluation (OP-BLOCKHEAD,
//! OP-BRACKET, OP-ASSIGNEXPR and the like). "`;`, brackets and the ends of blocks
//! have no code" (readings, 14), so these rules take no entry: they are applied
//! as soon as they can be.

use data::{Side, Type, Value};

use super::names::{called, Callee};
use super::term::{Context, Frame, Place, Rule, Term, Variables};
use super::tree::{Block, Code, Id, Kind, Method, Name, Statement, Tree};

/// A method's frame: "parameters stand in the body's" block, its variables are
/// empty.
pub fn start<'t>(tree: &'t Tree<'t>, method: usize, arguments: &[Value]) -> Frame<'t> {
    let Method { parameters, body, .. } = &tree.methods[method];
    let mut frame = Frame { method, blocks: vec![Variables::new(&body.variables)], terms: vec![Term::EndMethod] };
    for (parameter, value) in parameters.iter().zip(arguments) {
        frame.store(Place { block: 0, name: parameter.name.bytes }, *value);
    }
    for variable in &body.variables {
        frame.declare(variable.name.bytes);
    }
    push_statements(&mut frame, body);
    unfold(tree, &mut frame);
    frame
}

/// Unfolds until the top term is one that moves.
pub fn unfold<'t>(tree: &'t Tree<'t>, frame: &mut Frame<'t>) {
    while let Some(term) = frame.terms.pop() {
        match term {
            Term::Statement(statement) => push_statement(tree, frame, statement),
            Term::Expression(id) if !is_simple(tree, id) => push_parts(tree, frame, id),
            Term::Context(mut context) if !context.left.is_empty() => {
                let next = context.left.pop().expect("one is left");
                frame.terms.extend([Term::Context(context), Term::Expression(next)]);
            }
            Term::EndBlock => {
                frame.blocks.pop();
            }
            moves => {
                frame.terms.push(moves);
                return;
            }
        }
    }
}

/// A context that waits for the values of these expressions, in their order.
fn waiting<'t>(rule: Rule<'t>, expressions: &[Id]) -> Term<'t> {
    let left = expressions.iter().rev().copied().collect();
    Term::Context(Context { rule, left, values: Vec::new() })
}

/// Whether an expression has its value in one move.
fn is_simple(tree: &Tree, id: Id) -> bool {
    matches!(tree.expressions[id].kind, Kind::Number(_) | Kind::Bool(_) | Kind::Variable(_) | Kind::New(_))
}

/// An expression made of others becomes a context that waits for them.
fn push_parts<'t>(tree: &'t Tree<'t>, frame: &mut Frame<'t>, id: Id) {
    let expression = &tree.expressions[id];
    let rule = match expression.kind {
        Kind::Assign(name) => Rule::Store(frame.place(name.bytes)),
        Kind::Operate(operator) => Rule::Operate(operator),
        Kind::Call(name) => Rule::Call(method(tree, name)),
        Kind::Measure => Rule::Measure,
        Kind::Receive => Rule::Receive,
        simple => unreachable!("{simple:?} has its value in one move"),
    };
    frame.terms.push(waiting(rule, &expression.parts));
}

fn method(tree: &Tree, name: Name) -> usize {
    tree.method(name.bytes).expect("31 has found every method")
}

/// A block's statements, the first on top (000, OP-BLOCKHEAD).
fn push_statements<'t>(frame: &mut Frame<'t>, block: &'t Block<'t>) {
    frame.terms.extend(block.statements.iter().rev().map(Term::Statement));
}

fn push_statement<'t>(tree: &'t Tree<'t>, frame: &mut Frame<'t>, statement: &'t Statement<'t>) {
    match &statement.kind {
        Code::Skip => {}
        Code::Assign(name, value) => push_assignment(frame, *name, *value),
        Code::Apply(name, arguments) => push_call(tree, frame, *name, arguments),
        Code::Evaluate(value) => frame.terms.push(waiting(Rule::Forget, &[*value])),
        Code::Fork(name, arguments) => frame.terms.push(waiting(Rule::Fork(method(tree, *name)), arguments)),
        Code::Send(end, value) => frame.terms.push(waiting(Rule::Send, &[*end, *value])),
        Code::Return(value) => frame.terms.push(waiting(Rule::Return, &[*value])),
        Code::If { test, then, otherwise } => {
            let rule = Rule::If { then, otherwise: otherwise.as_deref() };
            frame.terms.push(waiting(rule, &[*test]));
        }
        Code::While { test, .. } => frame.terms.push(waiting(Rule::While(statement), &[*test])),
        Code::Block(block) => push_block(frame, block),
    }
}

/// A block inside a method: its variables are declared one by one.
fn push_block<'t>(frame: &mut Frame<'t>, block: &'t Block<'t>) {
    frame.blocks.push(Variables::new(&block.variables));
    frame.terms.push(Term::EndBlock);
    push_statements(frame, block);
    frame.terms.extend(block.variables.iter().rev().map(|variable| Term::Declare(variable.name.bytes)));
}

/// A call whose value, if it has one, is forgotten; or a gate.
fn push_call<'t>(tree: &'t Tree<'t>, frame: &mut Frame<'t>, name: Name<'t>, arguments: &[Id]) {
    let rule = match called(tree, name.bytes) {
        Some(Callee::Gate(gate)) => Rule::Gate(gate),
        _ => {
            let method = method(tree, name);
            if tree.methods[method].returns != Type::None {
                frame.terms.push(waiting(Rule::Forget, &[]));
            }
            Rule::Call(method)
        }
    };
    frame.terms.push(waiting(rule, arguments));
}

/// An assignment whose value is forgotten. Of a withends channel the ends that were
/// declared with it follow: the first from the value, the second from the variable.
fn push_assignment<'t>(frame: &mut Frame<'t>, name: Name<'t>, value: Id) {
    let place = frame.place(name.bytes);
    let then = |rule| waiting(rule, &[]);
    if let Some([zero, one]) = frame.ends(place) {
        let second = [then(Rule::Forget), then(Rule::Store(one)), then(Rule::End(Side::One)), Term::Read(place)];
        let first = [then(Rule::Forget), then(Rule::Store(zero)), then(Rule::End(Side::Zero))];
        frame.terms.extend(second);
        frame.terms.extend(first);
    } else {
        frame.terms.push(then(Rule::Forget));
    }
    frame.terms.push(waiting(Rule::Store(place), &[value]));
}
