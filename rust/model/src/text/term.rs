//! What a process of a text stands at: document 000's term stack, with the
//! variables by their names.
//!
//! A term that waits for the value of an expression is an evaluation context. It
//! keeps the values that it has got so far, and they belong to the process:
//! "Values already evaluated are emptied too; 000 leaves them on the term stack"
//! (01).

use std::collections::BTreeMap;

use data::{Gate, Side, State, Value};

use super::tree::{Id, Operator, Statement, Variable};

/// What is done with the values of a context once they are all there.
#[derive(Clone, Copy, Debug)]
pub enum Rule<'t> {
    /// `x = .`
    Store(Place<'t>),
    Operate(Operator),
    /// A call of this method, by its number in text order.
    Call(usize),
    Measure,
    Receive,
    Gate(Gate),
    Fork(usize),
    Send,
    If {
        then: &'t Statement<'t>,
        otherwise: Option<&'t Statement<'t>>,
    },
    /// The test of this while.
    While(&'t Statement<'t>),
    Return,
    /// A statement's value is forgotten (000, OP-PROMOFORGET).
    Forget,
    /// A channel's end, for the assignment of a withends channel.
    End(Side),
}

/// A variable of a frame: the block that declares it, from the body's on, and its
/// name.
#[derive(Clone, Copy, Debug, PartialEq, Eq)]
pub struct Place<'t> {
    pub block: usize,
    pub name: &'t [u8],
}

/// An evaluation context.
#[derive(Clone, Debug)]
pub struct Context<'t> {
    pub rule: Rule<'t>,
    /// The expressions still to be evaluated, the next one last.
    pub left: Vec<Id>,
    pub values: Vec<Value>,
}

/// An item of the term stack.
#[derive(Clone, Debug)]
pub enum Term<'t> {
    Statement(&'t Statement<'t>),
    Expression(Id),
    /// A variable to be read, known by its place.
    Read(Place<'t>),
    Context(Context<'t>),
    /// The declaration of a variable in a block that is not a method's body.
    Declare(&'t [u8]),
    /// The end of a block (000's mark of a block on the stack).
    EndBlock,
    /// After the statement of an if that has an else: over the else.
    Over,
    /// After the body of this while: back to its test.
    Back(&'t Statement<'t>),
    /// The end of the method's body (000's mark of a call on the stack).
    EndMethod,
}

/// The variables of a block: 000's f_var and f_ch.
#[derive(Clone, Debug, Default)]
pub struct Variables<'t> {
    pub values: BTreeMap<&'t [u8], Value>,
    /// The names of the ends that were declared with a channel.
    pub ends: BTreeMap<&'t [u8], [&'t [u8]; 2]>,
}

impl<'t> Variables<'t> {
    /// Those of a block before any is declared; which ends belong to which channel
    /// is known from its text.
    pub fn new(variables: &[Variable<'t>]) -> Variables<'t> {
        let withends = variables.windows(3).filter(|three| three[0].withends);
        let ends = withends.map(|three| (three[0].name.bytes, [three[1].name.bytes, three[2].name.bytes]));
        Variables { values: BTreeMap::new(), ends: ends.collect() }
    }
}

/// A called method: its variables, block by block, and its terms, the next one
/// last.
#[derive(Clone, Debug)]
pub struct Frame<'t> {
    /// The method, by its number in text order.
    pub method: usize,
    pub blocks: Vec<Variables<'t>>,
    pub terms: Vec<Term<'t>>,
}

impl<'t> Frame<'t> {
    /// The variable of a name: the innermost block that declares it (000,
    /// varRef).
    pub fn place(&self, name: &'t [u8]) -> Place<'t> {
        let block = self.blocks.iter().rposition(|block| block.values.contains_key(name));
        Place { block: block.expect("31 has found every name declared"), name }
    }

    /// A variable's value.
    pub fn variable(&self, place: Place) -> Value {
        self.blocks[place.block].values[place.name]
    }

    /// The ends that were declared with a variable, in its own block (000,
    /// chanEnds).
    pub fn ends(&self, place: Place<'t>) -> Option<[Place<'t>; 2]> {
        let names = self.blocks[place.block].ends.get(place.name)?;
        Some(names.map(|name| Place { name, ..place }))
    }

    pub fn store(&mut self, place: Place<'t>, value: Value) {
        self.blocks[place.block].values.insert(place.name, value);
    }

    /// A variable of the innermost block, empty at first (000, OP-VARDECL).
    pub fn declare(&mut self, name: &'t [u8]) {
        let innermost = self.blocks.len() - 1;
        self.store(Place { block: innermost, name }, Value::Empty);
    }

    /// Hands a value to the context that waits for it (000, OP-SUBSTE and
    /// OP-SUBSTS).
    ///
    /// # Panics
    /// Where no context waits: every expression stands in one.
    pub fn deliver(&mut self, value: Value) {
        match self.terms.last_mut() {
            Some(Term::Context(context)) => context.values.push(value),
            other => panic!("a value is handed to {other:?}"),
        }
    }

    /// The values of contexts, the first evaluated first.
    pub fn pending(&self) -> Vec<Value> {
        let contexts = self.terms.iter().filter_map(|term| match term {
            Term::Context(context) => Some(&context.values),
            _ => None,
        });
        contexts.flatten().copied().collect()
    }

    /// Empties every variable and every value of a context that is given away.
    pub fn empty(&mut self, given: impl Fn(Value) -> bool) {
        let contexts = self.terms.iter_mut().filter_map(|term| match term {
            Term::Context(context) => Some(&mut context.values),
            _ => None,
        });
        let variables = self.blocks.iter_mut().flat_map(|block| block.values.values_mut());
        for value in variables.chain(contexts.flatten()) {
            if given(*value) {
                *value = Value::Empty;
            }
        }
    }
}

/// A process: its state, and its frames with the top one last.
#[derive(Clone, Debug)]
pub struct Process<'t> {
    pub state: State,
    pub frames: Vec<Frame<'t>>,
}

impl<'t> Process<'t> {
    pub fn runs(&self) -> bool {
        self.state == State::Running
    }

    /// The frame at work.
    ///
    /// # Panics
    /// In a process that has finished.
    pub fn top(&mut self) -> &mut Frame<'t> {
        self.frames.last_mut().expect("a running process has a frame")
    }

    /// What it stands at, while it runs.
    pub fn stands_at(&self) -> Option<&Term<'t>> {
        match self.runs() {
            true => self.frames.last()?.terms.last(),
            false => None,
        }
    }
}
