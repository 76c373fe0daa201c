//! Programs at the limits of qubits, channels, processes, frames, pending
//! values, ints, outcomes, methods and instructions.

use data::program::{op::*, Method};

use crate::random::Random;

/// One of the programs below.
pub fn limits(random: &mut Random) -> Vec<Method> {
    match random.below(12) {
        0 => makers(NEWQ, 0, random),
        1 => {
            let carried = random.word_between(1, 3);
            makers(NEWC, carried, random)
        }
        2 => forker(random),
        3 => recursion(random),
        4 | 5 => ints(random),
        6 => full_pending(random),
        7 => chain(random),
        8 => long_code(random),
        9 => measurer(random),
        10 => both_ends(random),
        _ => counted_makers(random),
    }
}

fn method(return_type: u16, parameters: &[u16], locals: &[u16], code: Vec<(u16, u16)>) -> Method {
    Method { return_type, parameters: parameters.len() as u16, slots: [parameters, locals].concat(), code }
}

/// Processes that make qubits or channels until there are no more.
fn makers(op: u16, argument: u16, random: &mut Random) -> Vec<Method> {
    let children = random.below(3);
    let mut main = vec![(FORK, 1); children];
    main.extend([(op, argument), (DROP, 0), (JUMP, children as u16)]);
    let child = vec![(op, argument), (DROP, 0), (JUMP, 0)];
    vec![method(0, &[], &[], main), method(0, &[], &[], child)]
}

/// Makes exactly a number of qubits near the limit, and finishes.
fn counted_makers(random: &mut Random) -> Vec<Method> {
    let (op, argument, most) = match random.below(2) {
        0 => (NEWQ, 0, 32),
        _ => (NEWC, 2, 16),
    };
    let count = random.between(most - 1, most + 1);
    let mut code = [(op, argument), (DROP, 0)].repeat(count);
    code.push((RET, 0));
    vec![method(0, &[], &[], code)]
}

/// Forks children with the same qubit twice until there are no more; children
/// may fork too.
fn forker(random: &mut Random) -> Vec<Method> {
    let mut main = vec![(NEWQ, 0), (PUT, 0), (GET, 0), (INT, 3)];
    main.extend([(FORK, 1), (JUMP, 0)]);
    let mut child = vec![(GET, 0), (GATE, 1)];
    if random.chance(50) {
        child.extend([(GET, 1), (GET, 0), (GET, 2), (FORK, 1)]);
    }
    child.push((RET, 0));
    vec![method(0, &[], &[3], main), method(0, &[3, 3, 1], &[], child)]
}

/// f(n) is 0 for n below 1, else n + f(n - 1): n waits in every frame.
fn recursion(random: &mut Random) -> Vec<Method> {
    let depth = random.word_between(4, 9);
    let main = vec![(INT, depth), (CALL, 1), (PUT, 0), (DROP, 0), (RET, 0)];
    let code = vec![
        (GET, 0),
        (INT, 1),
        (LESS, 0),
        (JFALSE, 6),
        (INT, 0),
        (RET, 0),
        (GET, 0),
        (GET, 0),
        (INT, 1),
        (SUB, 0),
        (CALL, 1),
        (ADD, 0),
        (RET, 0),
    ];
    vec![method(0, &[], &[1], main), method(1, &[1], &[], code)]
}

/// Doubles an int towards an edge and goes a step to or over it.
fn ints(random: &mut Random) -> Vec<Method> {
    // The most doublings that stay in range, for each start.
    let starts = [(1, 30), (65_535, 31), (3, 29), (65_533, 29), (32_767, 16), (32_768, 16)];
    let (start, most) = random.pick(&starts);
    let doublings = random.between(most - 1, most + 1).min(random.between(most, most + 1));
    let mut code = vec![(INT, start), (PUT, 0)];
    code.extend([(GET, 0), (ADD, 0), (PUT, 0)].repeat(doublings));
    code.extend([(INT, random.pick(&[0, 1, 2, 65_535])), (SUB, 0)]);
    let last = random.pick(&[ADD, SUB, EQ, LESS]);
    code.extend([(PUT, 1), (GET, 0), (last, 0)]);
    if matches!(last, ADD | SUB) {
        code.extend([(PUT, 1), (INT, random.edgy_word()), (ADD, 0)]);
    }
    code.extend([(DROP, 0), (RET, 0)]);
    vec![method(0, &[], &[1, 1], code)]
}

/// Eight values pending, handed to a method of eight parameters, which pushes
/// eight of its own before it returns.
fn full_pending(random: &mut Random) -> Vec<Method> {
    let kinds = [1, 2, 3, 19, 35, 3, 1, 1];
    let mut main = vec![(NEWQ, 0), (PUT, 0), (DROP, 0), (NEWC, 3), (PUT, 1), (DROP, 0)];
    let pushes = [(INT, 1), (BOOL, 1), (GET, 0), (GET, 1), (GET, 1), (END, 0)];
    main.extend(pushes);
    main.extend([(GET, 0), (INT, 2), (INT, 65_535)]);
    let target = if random.chance(50) { CALL } else { FORK };
    main.extend([(target, 1), (JUMP, 0)]);
    let mut taker = vec![(GET, 0), (GET, 6), (GET, 7)];
    taker.extend(vec![(GET, 0); 5]);
    taker.extend([(ADD, 0); 7]);
    taker.extend([(DROP, 0), (GET, 2), (GATE, 4), (GET, 4), (RECV, 0)]);
    taker.extend([(DROP, 0), (RET, 0)]);
    vec![method(0, &[], &[3, 19], main), method(0, &kinds, &[], taker)]
}

/// Up to 32 methods, each calling or forking the next.
fn chain(random: &mut Random) -> Vec<Method> {
    let methods = random.between(7, 32);
    let link = |number: usize, random: &mut Random| {
        let op = if random.chance(60) { CALL } else { FORK };
        let next = ((number + 1) % methods) as u16;
        method(0, &[], &[2], vec![(CLEAR, 0), (op, next), (RET, 0)])
    };
    (0..methods).map(|number| link(number, random)).collect()
}

/// A table of up to 4096 instructions: main jumps far ahead to its last two,
/// the other method runs from end to end for ever.
fn long_code(random: &mut Random) -> Vec<Method> {
    let length = random.pick(&[4_096, 4_095, 1_000]);
    let split = random.between(3, length - 2);
    let mut main = vec![(CLEAR, 15); split];
    main[0] = (JUMP, (split - 2) as u16);
    main[split - 2] = (FORK, 1);
    main[split - 1] = (RET, 0);
    let mut other = vec![(CLEAR, 15); length - split];
    other[0] = (FORK, 0);
    other[length - split - 1] = (JUMP, 0);
    let mut slots = vec![0; 15];
    slots.push(33);
    vec![method(0, &[], &slots, main), method(0, &[], &slots, other)]
}

/// Measures one qubit until the outcomes are used up.
fn measurer(random: &mut Random) -> Vec<Method> {
    let children = random.below(3);
    let mut code = vec![(FORK, 1); children];
    let start = code.len() as u16 + 3;
    code.extend([(NEWQ, 0), (PUT, 0), (DROP, 0)]);
    code.extend([(GET, 0), (MEAS, 0), (INT, 0), (EQ, 0), (JFALSE, start)]);
    code.extend([(GET, 0), (GATE, 4), (JUMP, start)]);
    let child = vec![(NEWQ, 0), (MEAS, 0), (DROP, 0), (JUMP, 0)];
    vec![method(0, &[], &[3], code), method(0, &[], &[], child)]
}

/// Writes lines for ever: more than 4096 in some 8,500 entries.
pub fn endless(random: &mut Random) -> Vec<Method> {
    let mut code = vec![(NEWQ, 0), (PUT, 0), (DROP, 0)];
    code.push((CLEAR, 1));
    for _ in 0..20 {
        code.extend([(GET, 0), (GATE, random.word_between(1, 5))]);
    }
    code.push((JUMP, 4));
    vec![method(0, &[], &[3, 1], code)]
}

/// One process with both ends of a channel: it must not meet itself. A second
/// one may keep the run going, or wait at another channel.
fn both_ends(random: &mut Random) -> Vec<Method> {
    let mut main = vec![(NEWC, 1), (PUT, 0), (END, 0), (PUT, 1), (DROP, 0)];
    main.extend([(GET, 0), (END, 1), (PUT, 2), (DROP, 0)]);
    if random.chance(60) {
        main.push((FORK, 1));
    }
    let send = [(GET, 1), (INT, 4), (SEND, 0)];
    let receive = [(GET, 2), (RECV, 0), (DROP, 0)];
    match random.below(2) {
        0 => main.extend([send, receive].concat()),
        _ => main.extend([receive, send].concat()),
    }
    main.push((RET, 0));
    let child = match random.below(3) {
        0 => vec![(RET, 0)],
        1 => vec![(CLEAR, 0), (JUMP, 0)],
        _ => vec![(NEWC, 1), (END, 1), (RECV, 0), (DROP, 0), (RET, 0)],
    };
    vec![method(0, &[], &[17, 33, 33], main), method(0, &[], &[1], child)]
}
