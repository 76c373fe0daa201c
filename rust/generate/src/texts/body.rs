//! The body of a well-typed method: blocks and statements.

use super::program::{header, Signature};
use super::words::{type_tokens, DOUBLE, KINDS, SINGLE, VARIABLES};
use crate::random::Random;

/// Slots of a frame.
const SLOTS: usize = 16;

/// A variable in scope.
#[derive(Clone, Debug)]
pub struct Variable {
    pub name: String,
    pub kind: u16,
    /// Whether it holds a value, as far as one can tell.
    pub full: bool,
    /// The two variables after it are its ends.
    pub withends: bool,
}

/// Where a variable stands: its block and its number in there.
pub type Place = (usize, usize);

/// A method while it is written.
pub struct Body<'a> {
    pub random: &'a mut Random,
    pub signatures: &'a [Signature],
    pub own: usize,
    pub blocks: Vec<Vec<Variable>>,
    slots_left: usize,
    /// How many values are pending.
    pub pending: usize,
    /// How many expressions may still be written before it gets short.
    pub left: usize,
    tokens: Vec<String>,
}

impl<'a> Body<'a> {
    pub fn new(own: usize, signatures: &'a [Signature], left: usize, random: &'a mut Random) -> Body<'a> {
        let Signature { returns, parameters, .. } = &signatures[own];
        let slots_left = SLOTS - parameters.len() - usize::from(*returns != 0);
        Body { random, signatures, own, blocks: Vec::new(), slots_left, pending: 0, left, tokens: Vec::new() }
    }

    pub fn write(mut self) -> Vec<String> {
        let signature = self.signatures[self.own].clone();
        self.blocks.push(Vec::new());
        for kind in &signature.parameters {
            let name = self.fresh_name();
            self.blocks[0].push(Variable { name, kind: *kind, full: true, withends: false });
        }
        let names: Vec<String> = self.blocks[0].iter().map(|variable| variable.name.clone()).collect();
        self.tokens = header(&signature, &names);
        self.inside(1);
        self.tokens
    }

    // Tokens and variables.

    pub fn put(&mut self, words: &[&str]) {
        self.tokens.extend(words.iter().map(|word| word.to_string()));
    }

    pub fn put_type(&mut self, kind: u16) {
        self.tokens.extend(type_tokens(kind));
    }

    pub fn is_short(&self) -> bool {
        self.left == 0
    }

    /// A name that the innermost block does not have.
    fn fresh_name(&mut self) -> String {
        let block = self.blocks.last().map(Vec::as_slice).unwrap_or_default();
        let free = VARIABLES.iter().filter(|name| block.iter().all(|variable| variable.name != **name));
        let free: Vec<&str> = free.copied().collect();
        self.random.pick(&free).to_string()
    }

    pub fn variable(&self, place: Place) -> &Variable {
        &self.blocks[place.0][place.1]
    }

    pub fn fill(&mut self, place: Place, full: bool) {
        self.blocks[place.0][place.1].full = full;
    }

    /// The variables that a name still means, of this type.
    pub fn visible(&self, kind: u16) -> Vec<Place> {
        let mut seen: Vec<&str> = Vec::new();
        let mut places = Vec::new();
        for (block, variables) in self.blocks.iter().enumerate().rev() {
            for (index, variable) in variables.iter().enumerate() {
                if !seen.contains(&variable.name.as_str()) && variable.kind == kind {
                    places.push((block, index));
                }
            }
            seen.extend(variables.iter().map(|variable| variable.name.as_str()));
        }
        places
    }

    // Blocks.

    /// `{ declarations statements }` in the scope that is open.
    fn inside(&mut self, depth: usize) {
        self.put(&["{"]);
        self.declarations(depth);
        let statements = self.random.pick(&[0, 1, 2, 3, 5, 8]);
        for _ in 0..statements {
            if !self.is_short() {
                self.statement(depth);
            }
        }
        if depth == 1 {
            self.close();
        }
        self.put(&["}"]);
    }

    fn block(&mut self, depth: usize) {
        self.blocks.push(Vec::new());
        self.inside(depth);
        self.blocks.pop();
    }

    /// Mostly a method that has a value returns one.
    fn close(&mut self) {
        if self.signatures[self.own].returns != 0 && self.random.chance(85) {
            self.return_value();
        }
    }

    fn declarations(&mut self, depth: usize) {
        let most = if depth == 1 { 5 } else { 2 };
        for _ in 0..self.random.below(most + 1) {
            let kind = self.random.pick(&KINDS);
            let withends = (17..=19).contains(&kind) && self.random.chance(60);
            let wanted = if withends { 3 } else { self.random.pick(&[1, 1, 2, 3]) };
            if wanted <= self.slots_left {
                self.slots_left -= wanted;
                self.declaration(kind, wanted, withends);
            }
        }
    }

    fn declaration(&mut self, kind: u16, count: usize, withends: bool) {
        self.put_type(kind);
        for index in 0..count {
            let name = self.fresh_name();
            match (withends, index) {
                (_, 0) => {}
                (true, 1) => self.put(&["withends", "["]),
                _ => self.put(&[","]),
            }
            self.put(&[&name]);
            let kind = if withends && index > 0 { kind + 16 } else { kind };
            let variable = Variable { name, kind, full: false, withends: withends && index == 0 };
            let innermost = self.blocks.len() - 1;
            self.blocks[innermost].push(variable);
        }
        if withends {
            self.put(&["]"]);
        }
        self.put(&[";"]);
    }

    // Statements.

    fn statement(&mut self, depth: usize) {
        self.left = self.left.saturating_sub(1);
        match self.random.weighted(&[24, 8, 6, 5, 3, 3, 3, 5, 3, 3, 2, 3]) {
            0 => self.assign(),
            1 => self.gate(),
            2 => self.call(),
            3 => self.fork(),
            4 => self.send(),
            5 => self.measure(),
            6 => self.receive(),
            7 if depth < 5 => self.branch(depth),
            8 if depth < 5 => self.repeat(depth),
            9 if depth < 5 => self.block(depth + 1),
            10 => self.put(&[";"]),
            11 if depth > 1 => self.early_return(),
            _ => self.assign(),
        }
    }

    /// A withends channel's assignment fills its ends too.
    fn assign(&mut self) {
        let kind = self.random.pick(&KINDS);
        let places = self.visible(kind);
        let Some(place) = self.random.pick_any(&places).filter(|_| self.can_make(kind)) else {
            return self.put(&[";"]);
        };
        let name = self.variable(place).name.clone();
        self.put(&[&name, "="]);
        self.expression(kind, 3);
        self.put(&[";"]);
        self.fill(place, true);
        if self.variable(place).withends {
            self.fill((place.0, place.1 + 1), true);
            self.fill((place.0, place.1 + 2), true);
        }
    }

    fn gate(&mut self) {
        let two = self.random.chance(40);
        let name = if two { self.random.pick(&DOUBLE) } else { self.random.pick(&SINGLE) };
        if self.signatures.iter().any(|signature| signature.name == name) {
            return self.put(&[";"]);
        }
        let kinds: &[u16] = if two { &[3, 3] } else { &[3] };
        self.put(&[name, "("]);
        self.list(kinds, 2);
        self.put(&[")", ";"]);
    }

    fn call(&mut self) {
        let Some(method) = self.choose_method(None) else {
            return self.put(&[";"]);
        };
        self.call_of(method, 2);
        self.put(&[";"]);
    }

    /// Qubits, channels and ends that are given by name are gone.
    fn fork(&mut self) {
        let Some(method) = self.choose_method(None) else {
            return self.put(&[";"]);
        };
        self.put(&["fork"]);
        let given = self.call_of(method, 1);
        self.put(&[";"]);
        for place in given.into_iter().flatten() {
            let stays = self.variable(place).kind < 3;
            self.fill(place, stays);
        }
    }

    fn send(&mut self) {
        let kind = self.random.word_between(1, 3);
        if !self.can_make(32 + kind) {
            return self.put(&[";"]);
        }
        self.put(&["send", "("]);
        let given = self.list(&[32 + kind, kind], 1);
        self.put(&[")", ";"]);
        if let (3, Some(place)) = (kind, given[1]) {
            self.fill(place, false);
        }
    }

    fn measure(&mut self) {
        match self.readable(3) {
            Some(place) => {
                let name = self.variable(place).name.clone();
                self.put(&["measure", "(", "StdBasis", ",", &name, ")", ";"]);
            }
            None => self.put(&[";"]),
        }
    }

    fn receive(&mut self) {
        let kind = self.random.word_between(33, 35);
        if !self.can_make(kind) {
            return self.put(&[";"]);
        }
        self.put(&["recv", "("]);
        self.expression(kind, 1);
        self.put(&[")", ";"]);
    }

    /// An if, at times with an else, and that at times with a further if.
    fn branch(&mut self, depth: usize) {
        self.put(&["if", "("]);
        self.expression(2, 2);
        self.put(&[")"]);
        self.nested(depth);
        if self.random.chance(60) {
            self.put(&["else"]);
            match self.random.chance(40) && depth < 4 {
                true => self.branch(depth + 1),
                false => self.nested(depth),
            }
        }
    }

    /// A body: a block, or a statement that no else could be taken from.
    fn nested(&mut self, depth: usize) {
        match self.random.below(5) {
            0 => self.assign(),
            1 => self.gate(),
            _ => self.block(depth + 1),
        }
    }

    /// A while that counts an int, or one that goes on for as long as it goes.
    fn repeat(&mut self, depth: usize) {
        let ints = self.visible(1);
        let Some(place) = self.random.pick_any(&ints).filter(|_| self.random.chance(80)) else {
            self.put(&["while", "("]);
            self.expression(2, 2);
            self.put(&[")"]);
            return self.nested(depth);
        };
        let name = self.variable(place).name.clone();
        let limit = self.random.pick(&["1", "2", "3"]);
        self.put(&[&name, "=", "0", ";", "while", "(", &name, "<", limit, ")", "{"]);
        self.fill(place, true);
        self.statement(depth + 1);
        self.put(&[&name, "=", &name, "+", "1", ";", "}"]);
    }

    fn early_return(&mut self) {
        match self.signatures[self.own].returns {
            0 => self.return_void(),
            _ => self.return_value(),
        }
    }

    fn return_value(&mut self) {
        let kind = self.signatures[self.own].returns;
        if self.can_make(kind) {
            self.put(&["return"]);
            self.expression(kind, 2);
            self.put(&[";"]);
        }
    }

    /// `return f();` of a void f in a void method.
    fn return_void(&mut self) {
        if let Some(method) = self.choose_method(Some(0)) {
            self.put(&["return"]);
            self.call_of(method, 1);
            self.put(&[";"]);
        }
    }
}
