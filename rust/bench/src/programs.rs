//! The programs of the run workloads. None of them ends by itself.

use data::program::{op::*, Method};

fn method(parameters: &[u16], locals: &[u16], code: Vec<(u16, u16)>) -> Method {
    Method { return_type: 0, parameters: parameters.len() as u16, slots: [parameters, locals].concat(), code }
}

/// Ints through slot 0 and back to the start: twelve instructions.
fn sums(start: u16) -> Vec<(u16, u16)> {
    vec![
        (INT, 7),
        (INT, 9),
        (ADD, 0),
        (PUT, 0),
        (DROP, 0),
        (GET, 0),
        (INT, 16),
        (SUB, 0),
        (INT, 1),
        (LESS, 0),
        (JFALSE, start),
        (JUMP, start),
    ]
}

/// One process that computes.
pub fn arithmetic() -> Vec<Method> {
    vec![method(&[], &[1], sums(0))]
}

/// So many processes that compute.
pub fn processes(count: u16) -> Vec<Method> {
    let others = count - 1;
    let mut main = vec![(FORK, 1); others as usize];
    main.extend(sums(others));
    vec![method(&[], &[1], main), method(&[], &[1], sums(0))]
}

/// One process that computes, and after it so many instructions that are never reached.
pub fn longer(instructions: u16) -> Vec<Method> {
    let mut main = sums(0);
    while main.len() + 12 <= instructions as usize {
        main.extend(sums(0));
    }
    vec![method(&[], &[1], main)]
}

/// Two processes that hand an int to and fro over one channel.
pub fn ping_pong() -> Vec<Method> {
    let main = vec![
        (NEWC, 1),
        (PUT, 0),
        (END, 0),
        (PUT, 1),
        (DROP, 0),
        (GET, 0),
        (END, 1),
        (FORK, 1),
        (GET, 1),
        (INT, 5),
        (SEND, 0),
        (GET, 1),
        (RECV, 0),
        (DROP, 0),
        (JUMP, 8),
    ];
    let child = vec![(GET, 0), (RECV, 0), (PUT, 1), (DROP, 0), (GET, 0), (GET, 1), (SEND, 0), (JUMP, 0)];
    vec![method(&[], &[17, 33], main), method(&[33], &[1], child)]
}

/// Two processes that hand a qubit to and fro over one channel.
pub fn hand_over() -> Vec<Method> {
    let main = vec![
        (NEWQ, 0),
        (PUT, 2),
        (DROP, 0),
        (NEWC, 3),
        (PUT, 0),
        (END, 0),
        (PUT, 1),
        (DROP, 0),
        (GET, 0),
        (END, 1),
        (FORK, 1),
        (GET, 1),
        (GET, 2),
        (SEND, 0),
        (GET, 1),
        (RECV, 0),
        (PUT, 2),
        (DROP, 0),
        (JUMP, 11),
    ];
    let child = vec![(GET, 0), (RECV, 0), (PUT, 1), (DROP, 0), (GET, 0), (GET, 1), (SEND, 0), (JUMP, 0)];
    vec![method(&[], &[19, 35, 3], main), method(&[35], &[3], child)]
}

/// An instruction of main's loop in a method whose parameters are main's slots 1 and 2.
fn in_callee((op, argument): (u16, u16)) -> (u16, u16) {
    match op {
        JUMP => (JUMP, 0),
        GET | PUT => (op, argument - 1),
        _ => (op, argument),
    }
}

/// The same where the first process hands on from its top frame of so many.
pub fn hand_over_from(frames: u16) -> Vec<Method> {
    let mut methods = hand_over();
    let loops = methods[0].code.split_off(11);
    let give = methods.len() as u16;
    methods[0].code.extend([(GET, 1), (GET, 2), (CALL, give), (RET, 0)]);
    for k in 1..frames {
        let last = k + 1 == frames;
        let code = if last {
            loops.iter().map(|&line| in_callee(line)).collect()
        } else {
            vec![(GET, 0), (GET, 1), (CALL, give + k), (RET, 0)]
        };
        methods.push(method(&[35, 3], &[], code));
    }
    methods
}

/// A qubit handed around four processes, a gate at each.
pub fn relay() -> Vec<Method> {
    // Slot 0 a channel, slots 1 to 8 the ends of four, slot 9 the qubit.
    let mut main = vec![(NEWQ, 0), (PUT, 9), (DROP, 0)];
    for k in 0..4 {
        main.extend([(NEWC, 3), (PUT, 0), (END, 0), (PUT, 2 * k + 1), (DROP, 0)]);
        main.extend([(GET, 0), (END, 1), (PUT, 2 * k + 2), (DROP, 0)]);
    }
    for k in 1..4 {
        main.extend([(GET, 2 * k), (GET, 2 * k + 1), (FORK, 1)]);
    }
    let start = main.len() as u16;
    main.extend([(GET, 9), (GATE, 1), (GET, 1), (GET, 9), (SEND, 0)]);
    main.extend([(GET, 8), (RECV, 0), (PUT, 9), (DROP, 0), (JUMP, start)]);
    let stage = vec![(GET, 0), (RECV, 0), (PUT, 2), (GATE, 4), (GET, 1), (GET, 2), (SEND, 0), (JUMP, 0)];
    let mut slots = vec![19];
    slots.extend([35; 8]);
    slots.push(3);
    vec![method(&[], &slots, main), method(&[35, 35], &[3], stage)]
}

/// f(n) is 0 for n below 1, else n + f(n - 1): main and seven more frames.
pub fn calls() -> Vec<Method> {
    calls_to(8)
}

/// The same with so many frames, of which one is main's.
pub fn calls_to(frames: u16) -> Vec<Method> {
    let main = vec![(INT, frames - 2), (CALL, 1), (DROP, 0), (JUMP, 0)];
    let code = vec![
        (GET, 0),
        (INT, 1),
        (LESS, 0),
        (JFALSE, 6),
        (INT, 0),
        (RET, 0),
        (GET, 0),
        (GET, 0),
        (INT, 1),
        (SUB, 0),
        (CALL, 1),
        (ADD, 0),
        (RET, 0),
    ];
    let mut f = method(&[1], &[], code);
    f.return_type = 1;
    vec![method(&[], &[], main), f]
}

/// Main computes while seven others wait for ever.
pub fn waiting() -> Vec<Method> {
    let mut main = [(NEWC, 1), (END, 1), (FORK, 1)].repeat(7);
    main.extend(sums(21));
    let child = vec![(GET, 0), (RECV, 0), (DROP, 0), (RET, 0)];
    vec![method(&[], &[1], main), method(&[33], &[], child)]
}

/// Gates on one and two qubits, and measurements.
pub fn quantum() -> Vec<Method> {
    let main = vec![
        (NEWQ, 0),
        (PUT, 0),
        (DROP, 0),
        (NEWQ, 0),
        (PUT, 1),
        (DROP, 0),
        (GET, 0),
        (GATE, 4),
        (GET, 0),
        (GET, 1),
        (GATE, 6),
        (GET, 1),
        (MEAS, 0),
        (DROP, 0),
        (JUMP, 6),
    ];
    vec![method(&[], &[3, 3], main)]
}
