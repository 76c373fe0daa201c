//! Random well-typed programs: every statement leaves nothing pending, every
//! expression leaves one value of the type asked for.

use data::program::{op::*, Method};

use crate::random::Random;

/// The types that a value can have.
pub const KINDS: [u16; 9] = [1, 2, 3, 17, 18, 19, 33, 34, 35];
/// "hold at most 8 pending values"
const MOST_PENDING: usize = 8;
const SLOTS: usize = 16;

/// What a caller sees of a method.
#[derive(Clone, Debug)]
struct Signature {
    return_type: u16,
    parameters: Vec<u16>,
}

/// A random well-typed program.
pub fn typed(random: &mut Random) -> Vec<Method> {
    let methods = match random.below(12) {
        0 => random.between(10, 32),
        _ => random.between(1, 6),
    };
    let signatures: Vec<Signature> = (0..methods).map(|own| signature(own, random)).collect();
    // All methods together stay below 4096 instructions.
    let longest = (2_000 / methods).min(110);
    let write = |own| Body::new(own, &signatures, longest, random).write();
    (0..methods).map(write).collect()
}

fn signature(own: usize, random: &mut Random) -> Signature {
    if own == 0 {
        return Signature { return_type: 0, parameters: vec![] };
    }
    let return_type = match random.below(3) {
        0 => 0,
        _ => random.pick(&KINDS),
    };
    let count = random.pick(&[0, 0, 1, 1, 1, 2, 2, 3, 5, 8]);
    let parameters = (0..count).map(|_| random.pick(&KINDS)).collect();
    Signature { return_type, parameters }
}

/// A method while it is written.
struct Body<'a> {
    random: &'a mut Random,
    signatures: &'a [Signature],
    own: usize,
    slots: Vec<u16>,
    /// Which slots are full, as far as one can tell.
    full: [bool; SLOTS],
    /// How many values are pending.
    height: usize,
    /// From this length on only short expressions are written.
    longest: usize,
    code: Vec<(u16, u16)>,
}

impl<'a> Body<'a> {
    fn new(own: usize, signatures: &'a [Signature], longest: usize, random: &'a mut Random) -> Body<'a> {
        let mut slots = signatures[own].parameters.clone();
        let mut full = [false; SLOTS];
        full[..slots.len()].fill(true);
        let last = random.between(slots.len(), SLOTS);
        while slots.len() < last {
            let unused = random.chance(15);
            slots.push(if unused { 0 } else { random.pick(&KINDS) });
        }
        Body { random, signatures, own, slots, full, height: 0, longest, code: Vec::new() }
    }

    fn write(mut self) -> Method {
        let statements = self.random.between(2, 9);
        self.block(statements, 2);
        self.close();
        let signature = &self.signatures[self.own];
        Method {
            return_type: signature.return_type,
            parameters: signature.parameters.len() as u16,
            slots: self.slots,
            code: self.code,
        }
    }

    /// Mostly RET; at times a jump back to the start.
    fn close(&mut self) {
        if self.random.chance(8) {
            self.emit(JUMP, 0, 0, 0);
        } else {
            self.ret();
        }
    }

    fn ret(&mut self) {
        match self.signatures[self.own].return_type {
            0 => self.emit(RET, 0, 0, 0),
            kind => {
                self.value(kind, 1);
                self.emit(RET, 0, 1, 0);
            }
        }
    }

    fn emit(&mut self, op: u16, argument: u16, takes: usize, puts: usize) {
        self.code.push((op, argument));
        self.height = self.height - takes + puts;
    }

    fn room(&self) -> usize {
        MOST_PENDING - self.height
    }

    fn is_long(&self) -> bool {
        self.code.len() > self.longest
    }

    // Statements.

    fn block(&mut self, statements: usize, depth: usize) {
        for _ in 0..statements {
            if !self.is_long() {
                self.statement(depth);
            }
        }
    }

    fn statement(&mut self, depth: usize) {
        match self.random.weighted(&[8, 2, 1, 5, 2, 2, 1, 2, 1, 1]) {
            0 => self.assign(),
            1 => self.value_and_drop(),
            2 => self.clear(),
            3 => self.gate(),
            4 => self.call_void(),
            5 => self.fork(),
            6 => self.send(),
            7 if depth > 0 => self.branch(depth - 1),
            8 if depth > 0 => self.repeat(depth - 1),
            9 if depth < 2 => self.ret(),
            _ => self.assign(),
        }
    }

    fn assign(&mut self) {
        let used: Vec<usize> = (0..self.slots.len()).filter(|slot| self.slots[*slot] != 0).collect();
        let Some(slot) = self.random.pick_any(&used) else {
            return self.value_and_drop();
        };
        self.value(self.slots[slot], 2);
        self.emit(PUT, slot as u16, 1, 1);
        self.emit(DROP, 0, 1, 0);
        self.full[slot] = true;
    }

    fn value_and_drop(&mut self) {
        let kind = self.random.pick(&KINDS);
        self.value(kind, 2);
        self.emit(DROP, 0, 1, 0);
    }

    fn clear(&mut self) {
        let used: Vec<usize> = (0..self.slots.len()).filter(|slot| self.slots[*slot] != 0).collect();
        if let Some(slot) = self.random.pick_any(&used) {
            self.emit(CLEAR, slot as u16, 0, 0);
            self.full[slot] = false;
        }
    }

    /// A gate, at any number of pending values that leaves room for it.
    fn gate(&mut self) {
        let gate = self.random.word_between(1, 8);
        let takes = if gate > 5 { 2 } else { 1 };
        if self.room() < takes {
            return;
        }
        for _ in 0..takes {
            self.value(3, 1);
        }
        self.emit(GATE, gate, takes, 0);
    }

    fn call_void(&mut self) {
        if let Some(method) = self.choose_method(Some(0)) {
            self.call(method, 1);
        }
    }

    fn fork(&mut self) {
        let Some(method) = self.choose_method(None) else {
            return;
        };
        let read = self.arguments(method, 1);
        let takes = self.signatures[method].parameters.len();
        self.emit(FORK, method as u16, takes, 0);
        for slot in read.into_iter().flatten() {
            // Qubits, channels and ends have gone to the child.
            self.full[slot] &= self.slots[slot] < 3;
        }
    }

    fn send(&mut self) {
        let carried = self.random.word_between(1, 3);
        self.value(32 + carried, 1);
        let read = self.value(carried, 1);
        self.emit(SEND, 0, 2, 0);
        if let Some(slot) = read {
            self.full[slot] &= carried != 3;
        }
    }

    /// JFALSE over a block, at times with an else part.
    fn branch(&mut self, depth: usize) {
        self.value(2, 2);
        let to_else = self.jump_later(JFALSE);
        let before = self.full;
        let count = self.random.between(1, 3);
        self.block(count, depth);
        if self.random.chance(50) {
            let to_end = self.jump_later(JUMP);
            self.land(to_else);
            self.full = before;
            self.block(count, depth);
            self.land(to_end);
        } else {
            self.land(to_else);
        }
        for (slot, full) in before.into_iter().enumerate() {
            self.full[slot] &= full;
        }
    }

    /// A block run while a value is true, which may be for ever.
    fn repeat(&mut self, depth: usize) {
        let start = self.code.len() as u16;
        self.value(2, 2);
        let to_end = self.jump_later(JFALSE);
        let count = self.random.between(1, 2);
        self.block(count, depth);
        self.emit(JUMP, start, 0, 0);
        self.land(to_end);
    }

    /// Writes a jump whose target is set when it is known.
    fn jump_later(&mut self, op: u16) -> usize {
        let takes = if op == JFALSE { 1 } else { 0 };
        self.emit(op, 0, takes, 0);
        self.code.len() - 1
    }

    /// The method goes on here, with at least its closing instruction.
    fn land(&mut self, jump: usize) {
        self.code[jump].1 = self.code.len() as u16;
    }

    // Expressions. There is room for one value at least.

    /// Leaves one value of this type on top. Answers the slot it was read
    /// from, where it was only that.
    fn value(&mut self, kind: u16, depth: usize) -> Option<usize> {
        if !self.is_long() && self.room() >= 4 && self.random.chance(6) {
            // Values may stay pending across gates and calls.
            self.pending_effect();
        }
        if depth > 0 && !self.is_long() && self.random.chance(45) && self.compound(kind, depth - 1) {
            self.maybe_put(kind);
            return None;
        }
        let slot = self.slot_to_read(kind);
        match slot {
            Some(slot) => self.emit(GET, slot as u16, 0, 1),
            None => self.fresh(kind),
        }
        self.maybe_put(kind);
        slot
    }

    fn pending_effect(&mut self) {
        match self.random.below(2) {
            0 => self.gate(),
            _ => self.call_void(),
        }
    }

    fn maybe_put(&mut self, kind: u16) {
        let slots = self.slots_of(kind);
        if let Some(slot) = self.random.pick_any(&slots) {
            if self.random.chance(15) {
                self.emit(PUT, slot as u16, 1, 1);
                self.full[slot] = true;
            }
        }
    }

    fn slots_of(&self, kind: u16) -> Vec<usize> {
        let slots = 0..self.slots.len();
        slots.filter(|slot| self.slots[*slot] == kind).collect()
    }

    /// Mostly a slot that is full, at times any of the type.
    fn slot_to_read(&mut self, kind: u16) -> Option<usize> {
        let slots = self.slots_of(kind);
        if self.random.chance(1) {
            return self.random.pick_any(&slots);
        }
        if self.random.chance(20) {
            return None;
        }
        let full: Vec<usize> = slots.into_iter().filter(|slot| self.full[*slot]).collect();
        self.random.pick_any(&full)
    }

    /// A value made on the spot.
    fn fresh(&mut self, kind: u16) {
        match kind {
            1 => {
                let value = self.random.edgy_word();
                self.emit(INT, value, 0, 1);
            }
            2 => {
                let value = self.random.word_between(0, 1);
                self.emit(BOOL, value, 0, 1);
            }
            3 => self.emit(NEWQ, 0, 0, 1),
            17..=19 => self.emit(NEWC, kind - 16, 0, 1),
            _ => {
                self.value(kind - 16, 0);
                let side = self.random.word_between(0, 1);
                self.emit(END, side, 1, 1);
            }
        }
    }

    /// A value worked out by an op; false where none was to be had.
    fn compound(&mut self, kind: u16, depth: usize) -> bool {
        let two = self.room() >= 2;
        match (kind, self.random.below(6)) {
            (1, 0 | 1) if two => self.two_ints(&[ADD, SUB], depth),
            (1, 2 | 3) => self.one(3, MEAS, depth),
            (2, 0 | 1) if two => self.two_ints(&[EQ, LESS], depth),
            (2, 2) => self.one(2, NOT, depth),
            (1..=3, 4) if self.random.chance(20) => self.one(32 + kind, RECV, depth),
            _ => match self.choose_method(Some(kind)) {
                Some(method) => {
                    self.call(method, depth);
                    true
                }
                None => false,
            },
        }
    }

    fn one(&mut self, kind: u16, op: u16, depth: usize) -> bool {
        self.value(kind, depth);
        self.emit(op, 0, 1, 1);
        true
    }

    fn two_ints(&mut self, ops: &[u16], depth: usize) -> bool {
        self.value(1, depth);
        self.value(1, depth);
        let op = self.random.pick(ops);
        self.emit(op, 0, 2, 1);
        true
    }

    /// A method with this return type (any, where none is given) for whose
    /// arguments and result there is room; mostly one further on, so that
    /// calls end.
    fn choose_method(&mut self, return_type: Option<u16>) -> Option<usize> {
        let anywhere = self.random.chance(4);
        let first = if anywhere { 0 } else { self.own + 1 };
        let room = self.room();
        let fits = |method: &usize| {
            let signature = &self.signatures[*method];
            let kind_fits = return_type.is_none_or(|kind| kind == signature.return_type);
            kind_fits && signature.parameters.len().max(1) <= room
        };
        let methods: Vec<usize> = (first..self.signatures.len()).filter(fits).collect();
        self.random.pick_any(&methods)
    }

    /// Pushes a method's arguments; answers the slots they were read from.
    fn arguments(&mut self, method: usize, depth: usize) -> Vec<Option<usize>> {
        let parameters = self.signatures[method].parameters.clone();
        let push = |kind| self.value(kind, depth);
        parameters.into_iter().map(push).collect()
    }

    fn call(&mut self, method: usize, depth: usize) {
        self.arguments(method, depth);
        let signature = &self.signatures[method];
        let takes = signature.parameters.len();
        let puts = usize::from(signature.return_type != 0);
        self.emit(CALL, method as u16, takes, puts);
    }
}
