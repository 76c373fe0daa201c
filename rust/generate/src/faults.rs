//! Planned faults 20 and 27: a value is pending while a method is called that
//! gives it away, and then the emptied value is taken.

use data::program::op::*;
use data::Value;

use crate::helper::Helper;
use crate::plan::Plan;

impl Plan<'_> {
    /// Brings one process of the plan to such a fault, which is its last
    /// planned move.
    pub fn planned_fault(&mut self) {
        let Some(role) = self.live_role() else {
            return;
        };
        let slots = self.roles[role].thing_slots();
        let Some(slot) = self.random.pick_any(&slots) else {
            return;
        };
        match self.random.below(14) {
            0 => self.read_given(role, slot),
            1 => self.return_given(role, slot),
            2 => self.one_qubit_twice(role),
            3 => self.given_for_new(role),
            4..=6 => self.send_given_value(role),
            7 | 8 => self.take_sent(role),
            _ => self.take_given(role, slot),
        }
        self.roles[role].over = true;
    }

    /// Pushes a slot's thing, then has it given away by a deeper frame.
    fn push_and_give(&mut self, role: usize, slot: usize) {
        self.emit(role, &[(GET, slot as u16)]);
        self.give_below(role, slot);
    }

    fn give_below(&mut self, role: usize, slot: usize) {
        let kind = self.roles[role].kinds[slot];
        let give = self.helper(Helper::Give(kind));
        self.emit(role, &[(GET, slot as u16), (CALL, give)]);
        if let Some(thing) = self.roles[role].known[slot].thing() {
            self.roles[role].give(thing);
        }
    }

    /// GET of a slot whose thing was given by this frame's own FORK.
    fn read_given(&mut self, role: usize, slot: usize) {
        let kind = self.roles[role].kinds[slot];
        let sink = match kind {
            33..=35 => self.helper(Helper::SinkReceives(kind)),
            _ => self.helper(Helper::Sink(kind)),
        };
        let slot = slot as u16;
        let code = [(GET, slot), (FORK, sink), (GET, slot), (DROP, 0)];
        self.emit(role, &code);
    }

    /// RET of an emptied value.
    fn return_given(&mut self, role: usize, slot: usize) {
        let kind = self.roles[role].kinds[slot];
        let method = self.helper(Helper::ReturnGiven(kind));
        let code = [(GET, slot as u16), (CALL, method), (DROP, 0)];
        self.emit(role, &code);
    }

    /// Fault 27, over a copied reference at times.
    fn one_qubit_twice(&mut self, role: usize) {
        let slots = self.roles[role].full_slots(3);
        if let Some(slot) = self.random.pick_any(&slots) {
            let gate = self.random.word_between(6, 8);
            let get = (GET, slot as u16);
            self.emit(role, &[get, get, (GATE, gate)]);
        }
    }

    /// Case P10: the deeper operand of a gate is emptied, the upper is new.
    fn given_for_new(&mut self, role: usize) {
        let slots = self.roles[role].full_slots(3);
        if let Some(slot) = self.random.pick_any(&slots) {
            let method = self.helper(Helper::GiveForNew);
            let gate = self.random.word_between(6, 8);
            let get = (GET, slot as u16);
            self.emit(role, &[get, get, (CALL, method), (GATE, gate)]);
        }
    }

    /// Makes a qubit and answers where it was kept.
    fn slot_with_new_qubit(&mut self, role: usize) -> Option<usize> {
        self.emit(role, &[(NEWQ, 0)]);
        let qubit = self.new_qubit();
        self.keep(role, 3, qubit);
        let known = &self.roles[role].known;
        known.iter().position(|value| *value == qubit)
    }

    /// SEND of an emptied qubit while a partner, if there is one, waits at
    /// RECV.
    fn send_given_value(&mut self, role: usize) {
        let ways = self.ways(role).into_iter();
        let ways: Vec<_> = ways.filter(|way| way.carried == 3).collect();
        let Some(way) = self.random.pick_any(&ways) else {
            return;
        };
        let Some(slot) = self.slot_with_new_qubit(role) else {
            return;
        };
        self.push_end(role, way);
        self.push_and_give(role, slot);
        self.emit(role, &[(SEND, 0)]);
        self.leave_waiting(role, way.channel, true);
    }

    /// A qubit is pending while a deeper frame sends it away.
    fn take_sent(&mut self, role: usize) {
        let pairs = self.opposite_ways().into_iter();
        let pairs = pairs.filter(|(sender, way, _, _)| *sender == role && way.carried == 3);
        let pairs: Vec<_> = pairs.collect();
        let Some((_, way, receiver, other)) = self.random.pick_any(&pairs) else {
            return;
        };
        let Some(slot) = self.slot_with_new_qubit(role) else {
            return;
        };
        let qubit = self.roles[role].known[slot];
        let send = self.helper(Helper::Send(3));
        self.emit(role, &[(GET, slot as u16)]);
        self.push_end(role, way);
        self.emit(role, &[(GET, slot as u16), (CALL, send)]);
        self.emit(role, &[(MEAS, 0), (DROP, 0)]);
        self.receive(receiver, other, qubit);
    }

    /// Takes the emptied value by one of the ops that can.
    fn take_given(&mut self, role: usize, slot: usize) {
        let kind = self.roles[role].kinds[slot];
        let channel = match self.roles[role].known[slot] {
            Value::End(channel, _) => Some(channel),
            _ => None,
        };
        self.push_and_give(role, slot);
        let take = self.helper(Helper::Take(kind));
        let slot = slot as u16;
        match (kind, self.random.below(7)) {
            (_, 0) => self.emit(role, &[(PUT, slot), (DROP, 0)]),
            (_, 1) => self.emit(role, &[(DROP, 0)]),
            (_, 2) => self.emit(role, &[(INT, 5), (CALL, take)]),
            (_, 3) => self.emit(role, &[(INT, 5), (FORK, take)]),
            (3, 4) => self.emit(role, &[(GATE, 4)]),
            (3, 5) => self.emit(role, &[(NEWQ, 0), (GATE, 7)]),
            (3, _) => self.emit(role, &[(MEAS, 0), (DROP, 0)]),
            (17..=19, _) => self.emit(role, &[(END, 1), (DROP, 0)]),
            (_, 4) => self.send_over_given(role, kind - 32),
            _ => self.emit(role, &[(RECV, 0), (DROP, 0)]),
        }
        if let (Some(channel), Some((last, _))) = (channel, self.last_meeting_op(role)) {
            self.leave_waiting(role, channel, last == SEND);
        }
    }

    fn send_over_given(&mut self, role: usize, carried: u16) {
        match carried {
            1 => self.emit(role, &[(INT, 5)]),
            2 => self.emit(role, &[(BOOL, 1)]),
            _ => self.emit(role, &[(NEWQ, 0)]),
        }
        self.emit(role, &[(SEND, 0)]);
    }

    /// SEND or RECV among the last two instructions.
    fn last_meeting_op(&self, role: usize) -> Option<(u16, u16)> {
        let last = self.roles[role].code.iter().rev().take(2);
        last.copied().find(|(op, _)| matches!(*op, SEND | RECV))
    }

    /// Lets another process of the plan stand at the opposite op of the
    /// channel, where it finds its partner not ready.
    fn leave_waiting(&mut self, role: usize, channel: u16, receives: bool) {
        for other in 0..self.roles.len() {
            let mut ways = self.ways(other).into_iter();
            let way = ways.find(|way| way.channel == channel);
            let Some(way) = way else { continue };
            if other == role || self.roles[other].over {
                continue;
            }
            self.push_end(other, way);
            match receives {
                true => self.emit(other, &[(RECV, 0), (DROP, 0)]),
                false => self.send_over_given(other, way.carried),
            }
            self.roles[other].over = true;
        }
    }
}
