//! Programs planned as a whole: which process makes, gives and meets what is
//! decided first, and each process's code follows the plan. So processes do
//! meet, and faults come where the plan puts them.

use data::program::{op::*, Method};
use data::{Side, Thing, Value};
use model::state::giving_empties;

use crate::helper::{Helper, Helpers, FIRST_HELPER};
use crate::random::Random;

const SLOTS: usize = 16;

/// The part of one process in the plan: the method that it runs.
#[derive(Clone, Debug)]
pub struct Role {
    parameters: usize,
    pub kinds: Vec<u16>,
    /// What each slot holds after the plan so far. Numbers are the plan's
    /// own; only which are the same matters.
    pub known: Vec<Value>,
    pub code: Vec<(u16, u16)>,
    /// Its code has come to a fault or to a wait without end.
    pub over: bool,
}

impl Role {
    fn new(kinds: Vec<u16>, known: Vec<Value>) -> Role {
        Role { parameters: kinds.len(), kinds, known, code: Vec::new(), over: false }
    }

    /// Slots that hold something of this type.
    pub fn full_slots(&self, kind: u16) -> Vec<usize> {
        let slots = 0..self.kinds.len();
        slots.filter(|slot| self.kinds[*slot] == kind && self.known[*slot] != Value::Empty).collect()
    }

    /// Slots that hold a qubit, a channel or an end.
    pub fn thing_slots(&self) -> Vec<usize> {
        let slots = 0..self.kinds.len();
        slots.filter(|slot| self.known[*slot].thing().is_some()).collect()
    }

    pub fn give(&mut self, thing: Thing) {
        for value in &mut self.known {
            if giving_empties(thing, *value) {
                *value = Value::Empty;
            }
        }
    }
}

/// How a process gets an end: from a slot, or out of a channel in a slot.
#[derive(Clone, Copy, Debug)]
pub struct EndAccess {
    slot: usize,
    through_channel: bool,
    pub channel: u16,
    pub side: Side,
    pub carried: u16,
}

impl EndAccess {
    pub fn thing(self) -> Thing {
        Thing::End(self.channel, self.side)
    }
}

/// A program while it is planned.
pub struct Plan<'a> {
    pub random: &'a mut Random,
    pub roles: Vec<Role>,
    pub helpers: Helpers,
    qubits: u16,
    channels: u16,
}

/// A planned program.
pub fn plan(random: &mut Random) -> Vec<Method> {
    let mut plan =
        Plan { random, roles: vec![Role::new(vec![], vec![])], helpers: Helpers::default(), qubits: 0, channels: 0 };
    let connections = plan.random.pick(&[0, 1, 1, 2, 2, 3]);
    for _ in 0..connections {
        plan.connect();
    }
    let events = plan.random.between(4, 40);
    for _ in 0..events {
        plan.event();
    }
    let last_faults = plan.random.pick(&[0, 0, 1, 2, 3]);
    for _ in 0..last_faults {
        plan.planned_fault();
    }
    plan.write()
}

impl Plan<'_> {
    /// Some process of the plan that still goes on.
    pub fn live_role(&mut self) -> Option<usize> {
        let roles = 0..self.roles.len();
        let live: Vec<usize> = roles.filter(|role| !self.roles[*role].over).collect();
        self.random.pick_any(&live)
    }

    pub fn emit(&mut self, role: usize, code: &[(u16, u16)]) {
        self.roles[role].code.extend(code);
    }

    /// A helper's number.
    pub fn helper(&mut self, helper: Helper) -> u16 {
        self.helpers.number(helper)
    }

    fn event(&mut self) {
        let Some(role) = self.live_role() else {
            return;
        };
        match self.random.weighted(&[5, 2, 1, 3, 20, 5, 4, 3, 2, 3, 2]) {
            0 => self.make_qubit(role),
            1 => {
                self.make_channel(role);
            }
            2 => self.copy(role),
            3 => self.fork(role, None),
            4 => self.meeting(),
            5 => self.gate(role),
            6 => self.measure(role),
            7 => self.arithmetic(role),
            8 => self.branch(role),
            9 => self.call_with_pending(role),
            _ => self.connect(),
        }
    }

    // Slots.

    /// A slot for a value of this type: an empty one, a new one, or any.
    fn slot_for(&mut self, role: usize, kind: u16) -> Option<usize> {
        let owner = &mut self.roles[role];
        let slots: Vec<usize> = (0..owner.kinds.len()).filter(|slot| owner.kinds[*slot] == kind).collect();
        let empty = slots.iter().find(|slot| owner.known[**slot] == Value::Empty);
        if let Some(slot) = empty {
            return Some(*slot);
        }
        if owner.kinds.len() < SLOTS {
            owner.kinds.push(kind);
            owner.known.push(Value::Empty);
            return Some(owner.kinds.len() - 1);
        }
        self.random.pick_any(&slots)
    }

    /// Stores the top, where a slot is to be had, and takes it away.
    pub fn keep(&mut self, role: usize, kind: u16, value: Value) {
        if let Some(slot) = self.slot_for(role, kind) {
            self.emit(role, &[(PUT, slot as u16)]);
            self.roles[role].known[slot] = value;
        }
        self.emit(role, &[(DROP, 0)]);
    }

    // Making and copying.

    pub fn new_qubit(&mut self) -> Value {
        self.qubits += 1;
        Value::Qubit(self.qubits)
    }

    fn make_qubit(&mut self, role: usize) {
        self.emit(role, &[(NEWQ, 0)]);
        let qubit = self.new_qubit();
        self.keep(role, 3, qubit);
    }

    /// A channel, mostly with one of its ends taken out or with both. Answers
    /// its number.
    fn make_channel(&mut self, role: usize) -> u16 {
        let carried = self.random.word_between(1, 3);
        self.channels += 1;
        let channel = self.channels;
        self.emit(role, &[(NEWC, carried)]);
        let sides: &[Side] = match self.random.below(6) {
            0 => &[],
            1 => &[Side::Zero],
            2 => &[Side::One],
            _ => &[Side::Zero, Side::One],
        };
        match self.slot_for(role, 16 + carried) {
            Some(slot) => {
                self.emit(role, &[(PUT, slot as u16), (DROP, 0)]);
                self.roles[role].known[slot] = Value::Channel(channel);
                for side in sides {
                    self.emit(role, &[(GET, slot as u16), (END, side.number())]);
                    self.keep(role, 32 + carried, Value::End(channel, *side));
                }
            }
            None => self.emit(role, &[(DROP, 0)]),
        }
        channel
    }

    /// A channel with a process at either end: one is made, and a child forked
    /// with one of its ends.
    fn connect(&mut self) {
        if let Some(role) = self.live_role() {
            let channel = self.make_channel(role);
            self.fork(role, Some(channel));
        }
    }

    fn copy(&mut self, role: usize) {
        let slots = self.roles[role].thing_slots();
        let Some(slot) = self.random.pick_any(&slots) else {
            return;
        };
        let kind = self.roles[role].kinds[slot];
        let value = self.roles[role].known[slot];
        self.emit(role, &[(GET, slot as u16)]);
        self.keep(role, kind, value);
    }

    // Forks.

    /// Forks a new process with some of what the process has: things twice
    /// and channels with their own ends among them. Where a channel is given,
    /// one of its ends goes first.
    fn fork(&mut self, role: usize, channel: Option<u16>) {
        if self.roles.len() >= 9 {
            return;
        }
        let mut arguments = Vec::new();
        let ways = self.ways(role).into_iter();
        let ways: Vec<EndAccess> = ways.filter(|way| Some(way.channel) == channel).collect();
        if let Some(way) = self.random.pick_any(&ways) {
            arguments.push(self.end_argument(role, way));
        }
        let more = self.random.pick(&[0, 0, 1, 1, 2, 3]);
        arguments.extend((0..more).map(|_| self.argument(role)));
        for thing in arguments.iter().filter_map(|(_, value)| value.thing()) {
            self.roles[role].give(thing);
        }
        let child = self.roles.len();
        self.emit(role, &[(FORK, child as u16)]);
        let (kinds, known) = arguments.into_iter().unzip();
        self.roles.push(Role::new(kinds, known));
    }

    fn end_argument(&mut self, role: usize, way: EndAccess) -> (u16, Value) {
        self.push_end(role, way);
        (32 + way.carried, Value::End(way.channel, way.side))
    }

    /// Pushes something to give: mostly a thing, an end out of its channel
    /// among them, else an int or a boolean.
    fn argument(&mut self, role: usize) -> (u16, Value) {
        let ways = self.ways(role);
        let slots = self.roles[role].thing_slots();
        match self.random.below(8) {
            0 => {
                self.emit(role, &[(INT, 7)]);
                (1, Value::Int(7))
            }
            1 => {
                self.emit(role, &[(BOOL, 1)]);
                (2, Value::Bool(true))
            }
            2 | 3 if !ways.is_empty() => {
                let way = self.random.pick(&ways);
                self.end_argument(role, way)
            }
            _ if !slots.is_empty() => {
                let slot = self.random.pick(&slots);
                self.emit(role, &[(GET, slot as u16)]);
                let owner = &self.roles[role];
                (owner.kinds[slot], owner.known[slot])
            }
            _ => {
                self.emit(role, &[(NEWQ, 0)]);
                (3, self.new_qubit())
            }
        }
    }

    // Meetings.

    /// All ways in which a process gets an end.
    pub fn ways(&self, role: usize) -> Vec<EndAccess> {
        let owner = &self.roles[role];
        let mut ways = Vec::new();
        for (slot, (kind, value)) in owner.kinds.iter().zip(&owner.known).enumerate() {
            let mut add = |through_channel, channel, side| {
                ways.push(EndAccess { slot, through_channel, channel, side, carried: kind % 16 })
            };
            match *value {
                Value::End(channel, side) => add(false, channel, side),
                Value::Channel(channel) => {
                    add(true, channel, Side::Zero);
                    add(true, channel, Side::One);
                }
                _ => {}
            }
        }
        ways
    }

    pub fn push_end(&mut self, role: usize, way: EndAccess) {
        self.emit(role, &[(GET, way.slot as u16)]);
        if way.through_channel {
            self.emit(role, &[(END, way.side.number())]);
        }
    }

    /// Two live processes with the two ends of one channel, and their ways.
    pub fn opposite_ways(&self) -> Vec<(usize, EndAccess, usize, EndAccess)> {
        let live = |role: &usize| !self.roles[*role].over;
        let roles: Vec<usize> = (0..self.roles.len()).filter(live).collect();
        let mut found = Vec::new();
        for first in &roles {
            for second in roles.iter().filter(|second| *second != first) {
                for way in self.ways(*first) {
                    let opposite = Thing::End(way.channel, way.side.other());
                    let ways = self.ways(*second).into_iter();
                    let ways = ways.filter(|other| other.thing() == opposite);
                    found.extend(ways.map(|other| (*first, way, *second, other)));
                }
            }
        }
        found
    }

    /// A meeting, where one can be planned. Rarely one side is left out.
    fn meeting(&mut self) {
        let pairs = self.opposite_ways();
        let Some((sender, way, receiver, other)) = self.random.pick_any(&pairs) else {
            return;
        };
        let left_out = self.random.below(60);
        let mut value = Value::Int(0);
        if left_out != 0 {
            value = self.send(sender, way);
        }
        if left_out != 1 {
            self.receive(receiver, other, value);
        }
        self.roles[sender].over |= left_out == 1;
        self.roles[receiver].over |= left_out == 0;
    }

    /// Sends over an end; answers the value sent.
    fn send(&mut self, role: usize, way: EndAccess) -> Value {
        self.push_end(role, way);
        let value = self.push_carried(role, way.carried);
        if self.random.chance(25) {
            let send = self.helper(Helper::Send(way.carried));
            self.emit(role, &[(CALL, send)]);
        } else {
            self.emit(role, &[(SEND, 0)]);
        }
        if let Some(thing) = value.thing() {
            self.roles[role].give(thing);
        }
        value
    }

    /// Pushes a value that a channel can carry.
    fn push_carried(&mut self, role: usize, carried: u16) -> Value {
        let slots = self.roles[role].full_slots(carried);
        if let (Some(slot), true) = (self.random.pick_any(&slots), self.random.chance(75)) {
            self.emit(role, &[(GET, slot as u16)]);
            return self.roles[role].known[slot];
        }
        match carried {
            1 => {
                let word = self.random.edgy_word();
                self.emit(role, &[(INT, word)]);
                Value::Int(0)
            }
            2 => {
                let word = self.random.word_between(0, 1);
                self.emit(role, &[(BOOL, word)]);
                Value::Bool(false)
            }
            _ => {
                self.emit(role, &[(NEWQ, 0)]);
                self.new_qubit()
            }
        }
    }

    /// Receives over an end, at times with an int pending meanwhile.
    pub fn receive(&mut self, role: usize, way: EndAccess, value: Value) {
        let waiting_int = way.carried == 1 && self.random.chance(30);
        if waiting_int {
            self.emit(role, &[(INT, 3)]);
        }
        self.push_end(role, way);
        if self.random.chance(25) {
            let receive = self.helper(Helper::Receive(way.carried));
            self.emit(role, &[(CALL, receive)]);
        } else {
            self.emit(role, &[(RECV, 0)]);
        }
        if waiting_int {
            self.emit(role, &[(LESS, 0), (NOT, 0)]);
            self.keep(role, 2, Value::Bool(false));
        } else {
            self.keep(role, way.carried, value);
        }
    }

    // Local work.

    fn gate(&mut self, role: usize) {
        let slots = self.roles[role].full_slots(3);
        let Some(first) = self.random.pick_any(&slots) else {
            return;
        };
        let known = &self.roles[role].known;
        let others: Vec<usize> = slots.iter().copied().filter(|slot| known[*slot] != known[first]).collect();
        match self.random.pick_any(&others) {
            Some(second) if self.random.chance(60) => {
                let gate = self.random.word_between(6, 8);
                let gets = [(GET, first as u16), (GET, second as u16)];
                self.emit(role, &gets);
                self.emit(role, &[(GATE, gate)]);
            }
            _ => {
                let gate = self.random.word_between(1, 5);
                self.emit(role, &[(GET, first as u16), (GATE, gate)]);
            }
        }
    }

    fn measure(&mut self, role: usize) {
        let slots = self.roles[role].full_slots(3);
        if let Some(slot) = self.random.pick_any(&slots) {
            self.emit(role, &[(GET, slot as u16), (MEAS, 0)]);
            self.keep(role, 1, Value::Int(0));
        }
    }

    fn push_int(&mut self, role: usize) {
        self.push_carried(role, 1);
    }

    fn arithmetic(&mut self, role: usize) {
        self.push_int(role);
        self.push_int(role);
        let code: &[(u16, u16)] = match self.random.below(4) {
            0 => &[(ADD, 0)],
            1 => &[(SUB, 0)],
            2 => &[(EQ, 0)],
            _ => &[(LESS, 0), (NOT, 0)],
        };
        self.emit(role, code);
        match code[0].0 {
            ADD | SUB => self.keep(role, 1, Value::Int(0)),
            _ => self.keep(role, 2, Value::Bool(false)),
        }
    }

    /// A condition around something that changes no things: a gate, or an
    /// int slot cleared and set again.
    fn branch(&mut self, role: usize) {
        self.push_int(role);
        self.emit(role, &[(INT, 0), (EQ, 0), (JFALSE, 0)]);
        let jump = self.roles[role].code.len() - 1;
        self.gate(role);
        let full = self.roles[role].full_slots(1);
        if let Some(slot) = self.random.pick_any(&full).or_else(|| self.slot_for(role, 1)) {
            let slot = slot as u16;
            let code = [(CLEAR, slot), (INT, 9), (PUT, slot), (DROP, 0)];
            self.emit(role, &code);
        }
        let here = self.roles[role].code.len();
        self.roles[role].code[jump].1 = here as u16;
    }

    /// Values pending while a method is called that gives other things away,
    /// or hands the same one back.
    fn call_with_pending(&mut self, role: usize) {
        let slots = self.roles[role].thing_slots();
        let Some(slot) = self.random.pick_any(&slots) else {
            return self.arithmetic(role);
        };
        let kind = self.roles[role].kinds[slot];
        let value = self.roles[role].known[slot];
        match self.random.below(4) {
            0 => self.give_while_pending(role, slot),
            1 => {
                let take = self.helper(Helper::Take(kind));
                let code = [(GET, slot as u16), (INT, 5), (CALL, take)];
                self.emit(role, &code);
            }
            _ => {
                let same = self.helper(Helper::Same(kind));
                self.emit(role, &[(GET, slot as u16), (CALL, same)]);
                self.keep(role, kind, value);
            }
        }
    }

    /// Another thing is pending while this one is given; it stays.
    fn give_while_pending(&mut self, role: usize, slot: usize) {
        let owner = &self.roles[role];
        let Some(given) = owner.known[slot].thing() else {
            return;
        };
        let kind = owner.kinds[slot];
        let stays = |other: &usize| !giving_empties(given, owner.known[*other]);
        let others: Vec<usize> = owner.thing_slots().into_iter().filter(stays).collect();
        let Some(other) = self.random.pick_any(&others) else {
            return;
        };
        let (other_kind, other_value) = (owner.kinds[other], owner.known[other]);
        let give = self.helper(Helper::Give(kind));
        let code = [(GET, other as u16), (GET, slot as u16), (CALL, give)];
        self.emit(role, &code);
        self.roles[role].give(given);
        self.keep(role, other_kind, other_value);
    }

    // Writing.

    fn write(self) -> Vec<Method> {
        let first_helper = self.roles.len() as u16;
        let random = self.random;
        let mut sources: Vec<Method> =
            self.roles.into_iter().enumerate().map(|(number, role)| close(number, role, random)).collect();
        sources.extend(self.helpers.write());
        let instructions = sources.iter_mut().flat_map(|source| &mut source.code);
        for (op, argument) in instructions {
            if matches!(*op, CALL | FORK) && *argument >= FIRST_HELPER {
                *argument = *argument - FIRST_HELPER + first_helper;
            }
        }
        sources
    }
}

/// Closes a role's method: mostly with RET, at times with a value to be
/// discarded, or with a jump back to the start.
fn close(number: usize, mut role: Role, random: &mut Random) -> Method {
    let mut return_type = 0;
    match random.below(20) {
        0 => role.code.push((JUMP, 0)),
        1 | 2 if number > 0 => {
            return_type = 1;
            role.code.extend([(INT, 5), (RET, 0)]);
        }
        3 | 4 if number > 0 => {
            return_type = 3;
            role.code.extend([(NEWQ, 0), (RET, 0)]);
        }
        _ => role.code.push((RET, 0)),
    }
    Method { return_type, parameters: role.parameters as u16, slots: role.kinds, code: role.code }
}
