//! Expressions of a wanted type.

use super::body::{Body, Place};
use super::program::Signature;

/// "hold at most 8 pending values"
const MOST_PENDING: usize = 8;

impl Body<'_> {
    fn room(&self) -> usize {
        MOST_PENDING - self.pending
    }

    /// Whether an expression of the type can be written: of ends there must be a
    /// variable.
    pub fn can_make(&self, kind: u16) -> bool {
        kind < 33 || !self.visible(kind).is_empty()
    }

    /// Mostly a variable that holds a value, at times any of the type.
    pub fn readable(&mut self, kind: u16) -> Option<Place> {
        let places = self.visible(kind);
        let full: Vec<Place> = places.iter().copied().filter(|place| self.variable(*place).full).collect();
        match full.is_empty() || self.random.chance(2) {
            true => self.random.pick_any(&places),
            false => self.random.pick_any(&full),
        }
    }

    /// `expr`, with room for one value. Answers the variable that it reads, where it
    /// is only that.
    pub fn expression(&mut self, kind: u16, depth: usize) -> Option<Place> {
        self.left = self.left.saturating_sub(1);
        if depth == 0 || self.is_short() {
            return self.simple(kind);
        }
        match self.random.below(10) {
            0 | 1 if kind < 3 && self.room() >= 2 => self.operation(kind, depth - 1),
            2 if self.assignment(kind, depth - 1) => {}
            3 | 4 if self.is_made_new(kind) => self.allocation(kind),
            _ => return self.operand(kind, depth - 1),
        }
        None
    }

    /// `indivExpr`: an operator may follow.
    fn operand(&mut self, kind: u16, depth: usize) -> Option<Place> {
        match self.random.below(12) {
            0 | 1 => {
                self.put(&["("]);
                let place = self.expression(kind, depth);
                self.put(&[")"]);
                return place;
            }
            2 | 3 => {
                if let Some(method) = self.choose_method(Some(kind)) {
                    self.call_of(method, depth);
                    return None;
                }
            }
            4 if kind == 1 && self.measured() => return None,
            5 if self.received(kind, depth) => return None,
            _ => {}
        }
        self.simple_operand(kind)
    }

    /// A variable, a constant or something new.
    fn simple(&mut self, kind: u16) -> Option<Place> {
        let reads = self.random.chance(75);
        let found = self.readable(kind).filter(|place| self.variable(*place).full || !self.is_made_new(kind));
        match found.filter(|_| reads || kind >= 33) {
            None if self.is_made_new(kind) => {
                self.allocation(kind);
                None
            }
            _ => self.simple_operand(kind),
        }
    }

    fn simple_operand(&mut self, kind: u16) -> Option<Place> {
        let found = self.readable(kind);
        let full = found.is_some_and(|place| self.variable(place).full);
        if let Some(place) = found.filter(|_| full || kind >= 33) {
            let name = self.variable(place).name.clone();
            self.put(&[&name]);
            return Some(place);
        }
        match kind {
            1 => {
                let digits = self.random.pick(&["0", "1", "2", "3", "007", "12", "255", "32767"]);
                self.put(&[digits]);
            }
            2 => {
                let value = self.random.pick(&["true", "false"]);
                self.put(&[value]);
            }
            _ => {
                self.put(&["("]);
                self.allocation(kind);
                self.put(&[")"]);
            }
        }
        None
    }

    fn is_made_new(&self, kind: u16) -> bool {
        (3..33).contains(&kind)
    }

    fn allocation(&mut self, kind: u16) {
        self.put(&["new"]);
        self.put_type(kind);
        self.put(&["(", ")"]);
    }

    /// `E op F` of two ints.
    fn operation(&mut self, kind: u16, depth: usize) {
        let operators: &[&str] = if kind == 1 { &["+", "-"] } else { &["==", "<"] };
        self.operand(1, depth);
        let operator = self.random.pick(operators);
        self.put(&[operator]);
        self.pending += 1;
        self.expression(1, depth);
        self.pending -= 1;
    }

    /// `x = E`; false where there is no such variable. A withends channel is
    /// assigned only as a statement.
    fn assignment(&mut self, kind: u16, depth: usize) -> bool {
        let places = self.visible(kind).into_iter().filter(|place| !self.variable(*place).withends);
        let places: Vec<Place> = places.collect();
        let Some(place) = self.random.pick_any(&places) else {
            return false;
        };
        let name = self.variable(place).name.clone();
        self.put(&[&name, "="]);
        self.expression(kind, depth);
        self.fill(place, true);
        true
    }

    fn measured(&mut self) -> bool {
        let Some(place) = self.readable(3) else {
            return false;
        };
        let name = self.variable(place).name.clone();
        self.put(&["measure", "(", "StdBasis", ",", &name, ")"]);
        true
    }

    fn received(&mut self, kind: u16, depth: usize) -> bool {
        if kind > 3 || !self.can_make(32 + kind) || self.random.chance(70) {
            return false;
        }
        self.put(&["recv", "("]);
        self.expression(32 + kind, depth);
        self.put(&[")"]);
        true
    }

    // Calls.

    /// A method with this return type (any, where none is given) whose arguments can
    /// be made and have room; mostly one further on, so that calls end.
    pub fn choose_method(&mut self, returns: Option<u16>) -> Option<usize> {
        let first = if self.random.chance(10) { 0 } else { self.own + 1 };
        let fits = |method: &usize| {
            let Signature { returns: own, parameters, .. } = &self.signatures[*method];
            let makes = parameters.iter().all(|kind| self.can_make(*kind));
            makes && returns.is_none_or(|kind| kind == *own) && parameters.len().max(1) <= self.room()
        };
        let methods: Vec<usize> = (first..self.signatures.len()).filter(fits).collect();
        self.random.pick_any(&methods)
    }

    /// `f(E, ..)`; answers the variables that were given as they are.
    pub fn call_of(&mut self, method: usize, depth: usize) -> Vec<Option<Place>> {
        let Signature { name, parameters, .. } = self.signatures[method].clone();
        self.put(&[&name, "("]);
        let given = self.list(&parameters, depth);
        self.put(&[")"]);
        given
    }

    /// Expressions with commas between them.
    pub fn list(&mut self, kinds: &[u16], depth: usize) -> Vec<Option<Place>> {
        let before = self.pending;
        let mut given = Vec::new();
        for (index, kind) in kinds.iter().enumerate() {
            if index > 0 {
                self.put(&[","]);
            }
            given.push(self.expression(*kind, depth));
            self.pending += 1;
        }
        self.pending = before;
        given
    }
}
