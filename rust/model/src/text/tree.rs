//! The tree of a text.
//!
//! Expressions stand in one list and name each other by their numbers in it:
//! "Brackets and calls in expressions are not counted and not bounded"
//! (readings, 10), so no function may follow them by calling itself.

use std::collections::BTreeMap;

use data::Type;

/// A name where it stands.
#[derive(Clone, Copy, Debug, PartialEq, Eq)]
pub struct Name<'t> {
    pub at: usize,
    pub bytes: &'t [u8],
}

/// An operator of expressions.
#[derive(Clone, Copy, Debug, PartialEq, Eq, PartialOrd, Ord)]
pub enum Operator {
    Plus,
    Minus,
    Equals,
    Less,
}

impl Operator {
    /// The operator of a mark.
    pub fn read(mark: &[u8]) -> Option<Operator> {
        match mark {
            b"+" => Some(Operator::Plus),
            b"-" => Some(Operator::Minus),
            b"==" => Some(Operator::Equals),
            b"<" => Some(Operator::Less),
            _ => None,
        }
    }
}

/// An expression's number in the tree's list.
pub type Id = usize;

/// What an expression is; its parts stand beside it.
#[derive(Clone, Copy, Debug, PartialEq, Eq)]
pub enum Kind<'t> {
    /// A number, by its digits.
    Number(&'t [u8]),
    Bool(bool),
    Variable(Name<'t>),
    /// `x = E`
    Assign(Name<'t>),
    /// `E op F`
    Operate(Operator),
    /// `f(E, ..)`
    Call(Name<'t>),
    /// `measure(StdBasis, x)`; its part is the variable.
    Measure,
    /// `recv(E)`
    Receive,
    /// `new T()`
    New(Type),
}

/// An expression with the expressions it is made of, in text order.
#[derive(Clone, Debug, PartialEq, Eq)]
pub struct Expression<'t> {
    pub kind: Kind<'t>,
    pub parts: Vec<Id>,
}

/// A declared variable or parameter.
#[derive(Clone, Copy, Debug, PartialEq, Eq)]
pub struct Variable<'t> {
    pub kind: Type,
    pub name: Name<'t>,
    /// Declared with ends: the two variables after it are its ends.
    pub withends: bool,
}

/// A block: its variables in text order, then its statements.
#[derive(Clone, Debug, Default, PartialEq, Eq)]
pub struct Block<'t> {
    pub variables: Vec<Variable<'t>>,
    pub statements: Vec<Statement<'t>>,
}

/// 003's `code`, with where it starts.
#[derive(Clone, Debug, PartialEq, Eq)]
pub struct Statement<'t> {
    pub at: usize,
    pub kind: Code<'t>,
}

/// What a statement is.
#[derive(Clone, Debug, PartialEq, Eq)]
pub enum Code<'t> {
    /// `;`
    Skip,
    /// `x = E;`
    Assign(Name<'t>, Id),
    /// `NAME(E, ..);`, a call or a gate.
    Apply(Name<'t>, Vec<Id>),
    /// `measure(..);` or `recv(..);`
    Evaluate(Id),
    Fork(Name<'t>, Vec<Id>),
    Send(Id, Id),
    Return(Id),
    If {
        test: Id,
        then: Box<Statement<'t>>,
        otherwise: Option<Box<Statement<'t>>>,
    },
    While {
        test: Id,
        body: Box<Statement<'t>>,
    },
    Block(Block<'t>),
}

#[derive(Clone, Debug, PartialEq, Eq)]
pub struct Method<'t> {
    pub returns: Type,
    pub name: Name<'t>,
    pub parameters: Vec<Variable<'t>>,
    pub body: Block<'t>,
}

/// A text's methods in text order, all its expressions, and its length.
#[derive(Clone, Debug, Default, PartialEq, Eq)]
pub struct Tree<'t> {
    pub methods: Vec<Method<'t>>,
    pub expressions: Vec<Expression<'t>>,
    pub length: usize,
    /// The methods' names: "Of two methods of one name the first counts"
    /// (readings, 13).
    names: BTreeMap<&'t [u8], usize>,
}

impl<'t> Tree<'t> {
    /// The tree of a text of so many bytes, before any method is read.
    pub fn new(length: usize) -> Tree<'t> {
        Tree { length, ..Tree::default() }
    }

    /// One method more, after the others.
    pub fn add(&mut self, method: Method<'t>) {
        self.names.entry(method.name.bytes).or_insert(self.methods.len());
        self.methods.push(method);
    }

    /// The method of a name, by its number in text order.
    pub fn method(&self, name: &[u8]) -> Option<usize> {
        self.names.get(name).copied()
    }

    /// The number of a method in the table. "Main becomes method 0; the others
    /// follow in text order."
    pub fn number(&self, method: usize) -> usize {
        match self.method(b"main") {
            Some(main) if method == main => 0,
            Some(main) if method < main => method + 1,
            _ => method,
        }
    }

    /// The methods in the table's order.
    pub fn order(&self) -> Vec<usize> {
        let mut order: Vec<usize> = (0..self.methods.len()).collect();
        order.sort_by_key(|method| self.number(*method));
        order
    }

    /// An expression and all expressions in it, every one after its parts and
    /// the parts in text order: "Code is the internal syntax in postfix order"
    /// (01).
    pub fn postfix(&self, root: Id) -> Vec<Id> {
        let mut found = Vec::new();
        let mut left = vec![root];
        while let Some(id) = left.pop() {
            found.push(id);
            left.extend(&self.expressions[id].parts);
        }
        // Read from the right, each stands before its parts.
        found.reverse();
        found
    }
}
