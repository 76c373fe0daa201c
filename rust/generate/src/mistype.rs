//! Programs that question 5 says no to: the methods of a well-typed program
//! with an instruction more, less or other.

use data::program::{op::*, Method};

use crate::random::Random;

/// Changes one method so that it is most likely no longer well-typed.
pub fn mistype(methods: &mut [Method], random: &mut Random) {
    if random.chance(35) {
        return leave_pending(methods, random);
    }
    let method = random.below(methods.len());
    let source = &mut methods[method];
    let place = random.below(source.code.len());
    match random.below(10) {
        0 | 1 => insert(source, place, &[any_push(random)]),
        2 => {
            let pushes = vec![(INT, 9); random.between(8, 10)];
            insert(source, place, &pushes);
        }
        3 => remove(source, place),
        4 | 5 => other_push(source, random),
        6 => open_end(source, random),
        7 => other_target(source, random),
        8 => {
            let next = (place + 1).min(source.code.len() - 1);
            source.code.swap(place, next);
        }
        _ => {
            let op = random.pick(&[DROP, MEAS, RET, SEND, RECV, ADD, EQ, LESS, NOT, NEWQ]);
            source.code[place] = (op, 0);
        }
    }
}

/// "hold none after DROP, CLEAR, RET, FORK, SEND, JUMP and JFALSE"
const LEAVE_NOTHING: [u16; 7] = [DROP, CLEAR, RET, FORK, SEND, JUMP, JFALSE];

/// Lets one of these ops find a value more than it should: each op that the
/// program has is as likely as the others.
fn leave_pending(methods: &mut [Method], random: &mut Random) {
    let op = random.pick(&LEAVE_NOTHING);
    let mut places = Vec::new();
    for (method, source) in methods.iter().enumerate() {
        let of_op = |place: &usize| source.code[*place].0 == op;
        let found = (0..source.code.len()).filter(of_op);
        places.extend(found.map(|place| (method, place)));
    }
    let Some((method, place)) = random.pick_any(&places) else {
        return;
    };
    let code = &methods[method].code;
    let mut before = code[..place].iter();
    let last = before.rposition(|(op, _)| LEAVE_NOTHING.contains(op));
    let start = last.map_or(0, |last| last + 1);
    insert(&mut methods[method], start, &[any_push(random)]);
}

fn any_push(random: &mut Random) -> (u16, u16) {
    random.pick(&[(INT, 1), (BOOL, 0), (NEWQ, 0), (NEWC, 1), (NEWC, 3)])
}

/// Inserts instructions; jumps further on keep their targets.
fn insert(source: &mut Method, place: usize, code: &[(u16, u16)]) {
    for (op, target) in &mut source.code {
        if matches!(*op, JUMP | JFALSE) && usize::from(*target) > place {
            *target += code.len() as u16;
        }
    }
    source.code.splice(place..place, code.iter().copied());
}

/// Takes an instruction out, unless it is the only one.
fn remove(source: &mut Method, place: usize) {
    if source.code.len() == 1 {
        return;
    }
    source.code.remove(place);
    for (op, target) in &mut source.code {
        if matches!(*op, JUMP | JFALSE) && usize::from(*target) > place {
            *target -= 1;
        }
    }
    // A jump to the last instruction, where that was taken out.
    let last = source.code.len() as u16 - 1;
    for (op, target) in &mut source.code {
        if matches!(*op, JUMP | JFALSE) {
            *target = (*target).min(last);
        }
    }
}

/// Makes one of the instructions that push something push another type.
fn other_push(source: &mut Method, random: &mut Random) {
    let pushes = |place: &usize| matches!(source.code[*place].0, INT | BOOL | GET | NEWQ | NEWC);
    let places: Vec<usize> = (0..source.code.len()).filter(pushes).collect();
    if let Some(place) = random.pick_any(&places) {
        source.code[place] = any_push(random);
    }
}

/// Lets the method end on something else than RET or JUMP.
fn open_end(source: &mut Method, random: &mut Random) {
    let used = source.slots.iter().position(|kind| *kind != 0);
    match (used, random.below(3)) {
        (_, 0) => source.code.extend([(BOOL, 1), (JFALSE, 0)]),
        (Some(slot), 1) => source.code.push((CLEAR, slot as u16)),
        _ => source.code.extend([(INT, 1), (DROP, 0)]),
    }
}

/// Lets a jump end anywhere in its method; makes one where there is none.
fn other_target(source: &mut Method, random: &mut Random) {
    let jumps = |place: &usize| matches!(source.code[*place].0, JUMP | JFALSE);
    let places: Vec<usize> = (0..source.code.len()).filter(jumps).collect();
    let target = random.below(source.code.len()) as u16;
    match random.pick_any(&places) {
        Some(place) => source.code[place].1 = target,
        None => source.code.push((JUMP, target)),
    }
}
