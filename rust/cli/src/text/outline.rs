//! The methods of a text with what they declare and their statements, by its
//! tokens alone. A text that keeps to the grammar is read whole; of any other
//! the outline says nothing of use.

use std::ops::Range;

use crate::text::token::{tokens, Kind, Token, TYPES};

/// A method.
#[derive(Clone, Debug, PartialEq, Eq)]
pub struct Method<'t> {
    pub name: Token<'t>,
    pub is_void: bool,
    pub parameters: Vec<Variable<'t>>,
    /// What its blocks declare, in text order; a channel with ends is three.
    pub variables: Vec<Variable<'t>>,
    pub units: Vec<Unit>,
}

/// A name that is declared, and the block that it stands in, by a number.
#[derive(Clone, Copy, Debug, PartialEq, Eq)]
pub struct Variable<'t> {
    pub name: Token<'t>,
    pub block: usize,
}

/// What is evaluated by itself: a statement that holds no other, without its
/// semicolon, or the condition of an if or a while. The bytes of the text.
#[derive(Clone, Debug, PartialEq, Eq)]
pub enum Unit {
    Statement(Range<usize>),
    Condition(Range<usize>),
}

impl Unit {
    pub fn bytes(&self) -> &Range<usize> {
        match self {
            Unit::Statement(bytes) | Unit::Condition(bytes) => bytes,
        }
    }
}

impl Method<'_> {
    /// Parameters, variables and, where it returns a value, the hole.
    pub fn slots(&self) -> usize {
        self.parameters.len() + self.variables.len() + usize::from(!self.is_void)
    }
}

/// The methods in text order.
pub fn outline(text: &[u8]) -> Vec<Method<'_>> {
    let tokens = tokens(text);
    let mut walk = Walk { tokens: &tokens, at: 0, blocks: 0 };
    let mut methods = Vec::new();
    while let Some(method) = walk.method() {
        methods.push(method);
    }
    methods
}

/// The bracket that closes the one at an index.
pub fn closing(tokens: &[Token], open: usize) -> Option<usize> {
    let mut depth: usize = 0;
    for (index, token) in tokens.iter().enumerate().skip(open) {
        if token.is("(") {
            depth += 1;
        } else if token.is(")") {
            depth = depth.checked_sub(1)?;
            if depth == 0 {
                return Some(index);
            }
        }
    }
    None
}

/// Whether a statement may start at the token of an index, by what stands
/// before it.
pub fn starts_statement(tokens: &[Token], index: usize) -> bool {
    let Some(before) = index.checked_sub(1) else { return false };
    let is_inside = |token: &&Token| token.is("{") || token.is("}");
    let depth: isize = tokens[..index].iter().filter(is_inside).map(|token| if token.is("{") { 1 } else { -1 }).sum();
    match tokens[before] {
        token if token.is(")") => opening(tokens, before)
            .and_then(|open| tokens.get(open.checked_sub(1)?))
            .is_some_and(|word| word.is_one_of(&["if", "while"])),
        token => depth > 0 && token.is_one_of(&["{", "}", ";", "else"]),
    }
}

/// The bracket that the one at an index closes.
fn opening(tokens: &[Token], close: usize) -> Option<usize> {
    let mut depth: usize = 0;
    for (index, token) in tokens.iter().enumerate().take(close + 1).rev() {
        if token.is(")") {
            depth += 1;
        } else if token.is("(") {
            depth = depth.checked_sub(1)?;
            if depth == 0 {
                return Some(index);
            }
        }
    }
    None
}

/// How far the tokens are read.
struct Walk<'w, 't> {
    tokens: &'w [Token<'t>],
    at: usize,
    /// How many blocks there have been.
    blocks: usize,
}

impl<'t> Walk<'_, 't> {
    fn method(&mut self) -> Option<Method<'t>> {
        let rest = &self.tokens[self.at..];
        let is_void = rest.first()?.is("void");
        let name = *rest.iter().find(|token| token.kind == Kind::Name)?;
        let open = self.at + rest.iter().position(|token| token.is("("))?;
        let close = closing(self.tokens, open)?;
        self.blocks += 1;
        let parameters = self.names(open..close, self.blocks);
        let mut method = Method { name, is_void, parameters, variables: Vec::new(), units: Vec::new() };
        self.at = close + 1;
        self.body(&mut method);
        Some(method)
    }

    /// The names among some tokens, as declared in a block.
    fn names(&self, tokens: Range<usize>, block: usize) -> Vec<Variable<'t>> {
        let names = self.tokens[tokens].iter().filter(|token| token.kind == Kind::Name);
        names.map(|name| Variable { name: *name, block }).collect()
    }

    /// From the bracket that opens a method's body to the one that closes it.
    fn body(&mut self, method: &mut Method<'t>) {
        // The body's block has the number that its parameters have.
        let mut open = Vec::new();
        while let Some(token) = self.tokens.get(self.at) {
            if token.is("{") {
                self.blocks += usize::from(!open.is_empty());
                open.push(self.blocks);
                self.at += 1;
            } else if token.is("}") {
                open.pop();
                self.at += 1;
                if open.is_empty() {
                    return;
                }
            } else if token.is_one_of(&[";", "else"]) {
                self.at += 1;
            } else {
                self.statement(method, open.last().copied().unwrap_or_default());
            }
        }
    }

    /// A declaration, a condition or a statement that holds no other.
    fn statement(&mut self, method: &mut Method<'t>, block: usize) {
        let first = self.tokens[self.at];
        let last = self.tokens.len() - 1;
        if first.is_one_of(&["if", "while"]) {
            let close = closing(self.tokens, self.at).unwrap_or(last);
            let bytes = self.tokens[(self.at + 1).min(last)].end()..self.tokens[close].at;
            method.units.push(Unit::Condition(bytes));
            self.at = close + 1;
            return;
        }
        let length = self.tokens[self.at..].iter().position(|token| token.is(";"));
        let end = length.map_or(last, |length| self.at + length);
        if first.is_one_of(&TYPES) {
            let declared = self.names(self.at..end, block);
            method.variables.extend(declared);
        } else {
            method.units.push(Unit::Statement(first.at..self.tokens[end].at));
        }
        self.at = end + 1;
    }
}
