//! Programs in which stations go while others stand at SEND or RECV: chains in
//! which one goes after the other, both ends in one process, a holder that has
//! lost its last reference, and stations that wait for each other for ever.

use data::program::{op::*, Method};

use crate::random::Random;

/// Slots of every station: the end that it was given, a channel, an end of that
/// and a qubit that is never there.
const GIVEN: u16 = 0;
const CHANNEL: u16 = 1;
const OWN: u16 = 2;
const NOTHING: u16 = 3;

/// One of the programs below.
pub fn stations(random: &mut Random) -> Vec<Method> {
    let carried = random.word_between(1, 3);
    match random.below(11) {
        0..=2 => chain(carried, random),
        3 => both_ends(carried, random),
        4 | 5 => lost_reference(carried, random),
        6 | 7 => emptied_operand(random),
        _ => each_other(carried, random),
    }
}

/// A station of the slots above; main gets no end.
fn station(number: usize, carried: u16, code: Vec<(u16, u16)>) -> Method {
    let slots = vec![32 + carried, 16 + carried, 32 + carried, 3];
    Method { return_type: 0, parameters: u16::from(number > 0), slots, code }
}

/// Makes a channel, keeps its end 0 and forks a station with end 1.
fn connects(carried: u16, next: u16) -> Vec<(u16, u16)> {
    let make = [(NEWC, carried), (PUT, CHANNEL), (END, 0), (PUT, OWN), (DROP, 0)];
    let fork = [(GET, CHANNEL), (END, 1), (FORK, next)];
    [&make[..], &fork].concat()
}

/// Stands at SEND or RECV over the end in a slot.
fn meets(slot: u16, carried: u16, sends: bool) -> Vec<(u16, u16)> {
    let value = match carried {
        1 => (INT, 5),
        2 => (BOOL, 1),
        _ => (NEWQ, 0),
    };
    match sends {
        true => vec![(GET, slot), value, (SEND, 0)],
        false => vec![(GET, slot), (RECV, 0), (DROP, 0)],
    }
}

/// The last of a station: it returns, or a fault stops it, at once or later.
fn goes(random: &mut Random) -> Vec<(u16, u16)> {
    let later = random.pick(&[0, 0, 1, 6]);
    let mut code = vec![(CLEAR, NOTHING); later];
    match random.below(4) {
        0 => code.extend([(GET, NOTHING), (DROP, 0)]),
        1 => code.extend([(NEWQ, 0), (MEAS, 0), (DROP, 0)]),
        _ => (),
    }
    code.push((RET, 0));
    code
}

/// Each station has a channel to the next one. All wait for the one before, and
/// the first goes; or all wait for the next one, and the last goes.
fn chain(carried: u16, random: &mut Random) -> Vec<Method> {
    let last = random.between(1, 7);
    let for_the_next = random.chance(50);
    let code = |number: usize, random: &mut Random| {
        let mut code = Vec::new();
        if number < last {
            code.extend(connects(carried, number as u16 + 1));
        }
        let waits = match (for_the_next, number) {
            (true, _) if number < last => Some(OWN),
            (false, 1..) => Some(GIVEN),
            _ => None,
        };
        if let Some(slot) = waits {
            code.extend(meets(slot, carried, random.chance(50)));
        }
        code.extend(goes(random));
        code
    };
    (0..=last).map(|number| station(number, carried, code(number, random))).collect()
}

/// A child gets a channel, or both its ends, and stands at SEND or RECV.
fn both_ends(carried: u16, random: &mut Random) -> Vec<Method> {
    let mut main = vec![(NEWC, carried), (PUT, 0), (DROP, 0), (GET, 0)];
    let sends = random.chance(50);
    let mut child = match random.chance(50) {
        true => {
            main.extend([(END, 0), (GET, 0), (END, 1)]);
            meets(random.word_between(0, 1), carried, sends)
        }
        false => {
            let mut code = meets(0, carried, sends);
            code.insert(1, (END, random.word_between(0, 1)));
            code
        }
    };
    main.push((FORK, 1));
    main.extend([(CLEAR, 0), (RET, 0)]);
    child.push((RET, 0));
    let kinds = match main[4].0 {
        END => vec![32 + carried; 2],
        _ => vec![16 + carried],
    };
    let parameters = kinds.len() as u16;
    vec![
        Method { slots: vec![16 + carried], code: main, ..Method::default() },
        Method { parameters, slots: kinds, code: child, ..Method::default() },
    ]
}

/// Main holds an end that it no longer reaches: it never took it out of the
/// channel, or has cleared it. It runs on, or goes later.
fn lost_reference(carried: u16, random: &mut Random) -> Vec<Method> {
    let mut main = connects(carried, 1);
    if random.chance(50) {
        main.drain(2..4);
    }
    let cleared = main.len() as u16;
    main.extend([(CLEAR, OWN), (CLEAR, CHANNEL), (CLEAR, OWN)]);
    match random.chance(40) {
        true => main.push((JUMP, cleared)),
        false => main.extend(goes(random)),
    }
    let mut child = meets(GIVEN, carried, random.chance(50));
    child.extend(goes(random));
    vec![station(0, carried, main), station(1, carried, child)]
}

/// A child stands at SEND or RECV with an emptied operand, which a called method
/// has forked away, while main goes or stands at the opposite op: 20 comes before
/// 33, and one who is not ready is not met.
fn emptied_operand(random: &mut Random) -> Vec<Method> {
    let make = [(NEWQ, 0), (PUT, NOTHING), (DROP, 0)];
    let (kind, sends, child) = match random.below(3) {
        0 => (3, true, [&make[..], &[(GET, GIVEN), (GET, NOTHING), (GET, NOTHING), (CALL, 2), (SEND, 0)]].concat()),
        1 => (35, true, vec![(GET, GIVEN), (NEWQ, 0), (GET, GIVEN), (CALL, 2), (SEND, 0)]),
        _ => (35, false, vec![(GET, GIVEN), (GET, GIVEN), (CALL, 2), (RECV, 0), (DROP, 0)]),
    };
    let mut main = connects(3, 1);
    if random.chance(50) {
        main.extend(meets(OWN, 3, !sends));
    }
    main.extend(goes(random));
    let give = Method { parameters: 1, slots: vec![kind], code: vec![(GET, 0), (FORK, 3), (RET, 0)], return_type: 0 };
    let code = random.chance(50).then(|| vec![(CLEAR, 0), (JUMP, 0)]).unwrap_or(vec![(RET, 0)]);
    let taker = Method { code, ..give.clone() };
    vec![station(0, 3, main), station(1, 3, [child, vec![(RET, 0)]].concat()), give, taker]
}

/// Two stations that wait for each other: at the same op of one channel, or at
/// two channels.
fn each_other(carried: u16, random: &mut Random) -> Vec<Method> {
    let sends = random.chance(50);
    let mut main = connects(carried, 1);
    let mut child = Vec::new();
    if random.chance(40) {
        main.extend(meets(OWN, carried, sends));
        child.extend(meets(GIVEN, carried, sends));
    } else {
        main.extend(meets(OWN, carried, sends));
        child.extend(connects(carried, 2));
        child.extend(meets(OWN, carried, !sends));
        child.extend(meets(GIVEN, carried, !sends));
    }
    main.push((RET, 0));
    child.push((RET, 0));
    let mut methods = vec![station(0, carried, main), station(1, carried, child)];
    // The third meets nobody, and lets the second wait.
    methods.push(station(2, carried, [meets(GIVEN, carried, !sends), vec![(RET, 0)]].concat()));
    methods
}
