//! Giving away, reach and holders.

mod common;

use common::*;
use data::program::{op::*, Method};
use data::Side::{One, Zero};
use data::{Configuration, Holders, Line, Process, Run, Thing, Value};
use model::owner::{holder, ownership, reach};
use model::state::start_process;

/// Main's slots after it made a qubit (slot 0), a channel of qubits (slot 1)
/// and both its ends (slots 2 and 3), end 1 still on top: 12 entries. Slot 4
/// has the same qubit as slot 0.
const MAKING: [(u16, u16); 12] = [
    (NEWQ, 0),
    (PUT, 0),
    (PUT, 4),
    (DROP, 0),
    (NEWC, 3),
    (PUT, 1),
    (END, 0),
    (PUT, 2),
    (DROP, 0),
    (GET, 1),
    (END, 1),
    (PUT, 3),
];
const SLOTS: [u16; 5] = [QBIT, CHANNEL_QBIT, END_QBIT, END_QBIT, QBIT];

/// Main makes all that, then forks a child with these of its slots.
fn fork_with(slots: &[u16]) -> Run {
    let gets: Vec<(u16, u16)> = slots.iter().map(|slot| (GET, *slot)).collect();
    let close = [(FORK, 1), (RET, 0)];
    let code = [&MAKING[..], &[(DROP, 0)], &gets, &close].concat();
    let types: Vec<u16> = slots.iter().map(|slot| SLOTS[usize::from(*slot)]).collect();
    let methods = [main_method(&SLOTS, &code), method(VOID, &types, &[], &[(RET, 0)])];
    let entries = MAKING.len() + 2 + slots.len();
    run_all(&methods, &vec![0; entries], &[])
}

/// Main's five slots and the child's arguments, all numbered 0.
fn slots_after(run: &Run, arguments: usize) -> (Vec<Value>, Vec<Value>) {
    let slots = |process: &Process, count| process.frames[0].slots[..count].to_vec();
    (slots(&run.configuration.processes[0], 5), slots(&run.configuration.processes[1], arguments))
}

const Q: Value = Value::Qubit(0);
const C: Value = Value::Channel(0);
const E0: Value = Value::End(0, Zero);
const E1: Value = Value::End(0, One);
const GONE: Value = Value::Empty;

#[test]
fn giving_a_qubit_empties_every_slot_of_it() {
    let run = fork_with(&[0]);
    let (main, child) = slots_after(&run, 1);
    assert_eq!(main, [GONE, C, E0, E1, GONE]);
    assert_eq!(child, [Q]);
    assert_eq!(lines(&run)[2..], [[14, 0, 5, 1, 1, 1], [14, 0, 6, 1, 3, 0]]);
}

#[test]
fn giving_an_end_empties_the_channel_not_the_opposite_end() {
    let run = fork_with(&[2]);
    let (main, child) = slots_after(&run, 1);
    assert_eq!(main, [Q, GONE, GONE, E1, Q]);
    assert_eq!(child, [E0]);
    assert_eq!(lines(&run)[3], [14, 0, 6, 1, 5, 0]);
    let run = fork_with(&[3]);
    let (main, _) = slots_after(&run, 1);
    assert_eq!(main, [Q, GONE, E0, GONE, Q]);
    assert_eq!(lines(&run)[3], [14, 0, 6, 1, 6, 0]);
}

#[test]
fn giving_a_channel_empties_it_and_both_ends() {
    let run = fork_with(&[1]);
    let (main, child) = slots_after(&run, 1);
    assert_eq!(main, [Q, GONE, GONE, GONE, Q]);
    assert_eq!(child, [C]);
    assert_eq!(lines(&run)[3], [14, 0, 6, 1, 4, 0]);
}

#[test]
fn the_child_has_every_argument() {
    // The same qubit twice, and a channel with both its ends.
    let run = fork_with(&[0, 3, 1, 2, 4]);
    let (main, child) = slots_after(&run, 5);
    assert_eq!(main, [GONE; 5]);
    assert_eq!(child, [Q, E1, C, E0, Q]);
    let expected = [
        [18, 0, 5, 1, 1, 5],
        [18, 0, 6, 1, 3, 0],
        [18, 0, 6, 1, 6, 0],
        [18, 0, 6, 1, 4, 0],
        [18, 0, 6, 1, 5, 0],
        [18, 0, 6, 1, 3, 0],
    ];
    assert_eq!(lines(&run)[2..], expected);
}

#[test]
fn ints_and_booleans_have_no_line_but_count() {
    let methods = [
        main_method(&[], &[(INT, 5), (BOOL, 1), (NEWQ, 0), (INT, 6), (FORK, 1), (RET, 0)]),
        method(VOID, &[INT_TYPE, BOOL_TYPE, QBIT, INT_TYPE], &[], &[(RET, 0)]),
    ];
    let run = run_all(&methods, &[0; 5], &[]);
    let expected = [[2, 0, 1, 0, U, U], [4, 0, 5, 1, 1, 4], [4, 0, 6, 1, 3, 0]];
    assert_eq!(lines(&run), expected);
    let slots = &run.configuration.processes[1].frames[0].slots;
    assert_eq!(slots[..4], [Value::Int(5), Value::Bool(true), Q, Value::Int(6)]);
    assert_eq!(slots[4..], [GONE; 12]);
}

/// Main pushes all five, calls a method that gives the thing in `slot` away
/// from a deeper frame, and stands before the next instruction.
fn given_from_a_deeper_frame(slot: u16) -> (Vec<Value>, Vec<Value>) {
    let given = SLOTS[usize::from(slot)];
    let push = [(GET, 0), (GET, 1), (GET, 2), (GET, 3), (GET, 4)];
    let give = [(GET, slot), (CALL, 1)];
    // The five values go into a call that the schedule does not reach.
    let rest = [(CALL, 3), (RET, 0)];
    let code = [&MAKING[..], &[(DROP, 0)], &push, &give, &rest].concat();
    let twice = [(GET, 0), (CALL, 2), (RET, 0)];
    let forks = [(GET, 0), (FORK, 4), (RET, 0)];
    let methods = [
        main_method(&SLOTS, &code),
        method(VOID, &[given], &[], &twice),
        method(VOID, &[given], &[], &forks),
        method(VOID, &SLOTS, &[], &[(RET, 0)]),
        method(VOID, &[given], &[], &[(RET, 0)]),
    ];
    let run = run_all(&methods, &[0; 26], &[]);
    let frames = &run.configuration.processes[0].frames;
    assert_eq!(frames.len(), 1);
    (frames[0].slots[..5].to_vec(), frames[0].pending.clone())
}

#[test]
fn pending_values_of_all_frames_are_emptied_in_place() {
    let gone = [GONE, C, E0, E1, GONE];
    assert_eq!(given_from_a_deeper_frame(0), (gone.to_vec(), gone.to_vec()));
    let gone = [Q, GONE, GONE, GONE, Q];
    assert_eq!(given_from_a_deeper_frame(1), (gone.to_vec(), gone.to_vec()));
    let gone = [Q, GONE, GONE, E1, Q];
    assert_eq!(given_from_a_deeper_frame(2), (gone.to_vec(), gone.to_vec()));
    let gone = [Q, GONE, E0, GONE, Q];
    assert_eq!(given_from_a_deeper_frame(3), (gone.to_vec(), gone.to_vec()));
}

/// Main makes a qubit in slots 0 and 4 and another one in slot 5, forks a
/// child with end 1 and sends it the first; the child receives.
fn qubit_sent() -> Vec<Method> {
    let send =
        [(DROP, 0), (NEWQ, 0), (PUT, 5), (DROP, 0), (GET, 3), (FORK, 1), (GET, 2), (GET, 4), (SEND, 0), (RET, 0)];
    let code = [&MAKING[..], &send].concat();
    let slots = [&SLOTS[..], &[QBIT]].concat();
    let child = [(GET, 0), (RECV, 0), (PUT, 1), (DROP, 0), (RET, 0)];
    vec![main_method(&slots, &code), method(VOID, &[END_QBIT], &[QBIT], &child)]
}

#[test]
fn sending_a_qubit_gives_it() {
    let schedule = [[0; 20].as_slice(), &[1, 0, 1]].concat();
    let run = run_all(&qubit_sent(), &schedule, &[]);
    let expected = [[21, 0, 7, 1, 0, 0], [21, 0, 6, 1, 3, 0]];
    assert_eq!(lines(&run)[5..], expected);
    let main = &run.configuration.processes[0].frames[0];
    // Both slots with the qubit are empty, the other qubit and the end stay.
    let slots = [GONE, GONE, E0, GONE, GONE, Value::Qubit(1)];
    assert_eq!(main.slots[..6], slots);
    assert_eq!(main.pending, []);
    assert_eq!(run.configuration.processes[1].frames[0].slots[..2], [E1, Q]);
}

#[test]
fn copies_calls_and_ends_give_nothing() {
    let code = [(NEWC, 1), (PUT, 0), (CALL, 1), (GET, 0), (END, 0), (DROP, 0), (GET, 0), (END, 0), (DROP, 0), (RET, 0)];
    let methods = [main_method(&[CHANNEL_INT], &code), method(VOID, &[CHANNEL_INT], &[], &[(CLEAR, 0), (RET, 0)])];
    let run = run_all(&methods, &[0; 11], &[]);
    assert_eq!(answer(&run), (0, 11, 1, 0));
    assert_eq!(run.configuration.processes[0].frames[0].slots[0], C);
}

/// Lines from their words.
fn lines_of(words: &[[u16; 6]]) -> Vec<Line> {
    words.iter().map(|six| Line::from_words(*six)).collect()
}

#[test]
fn holders_by_lines_alone() {
    let lines = lines_of(&[
        [0, 2, 1, 5, U, U],
        [1, 3, 2, 5, U, U],
        [2, 3, 6, 4, 5, 5],
        [3, 2, 6, 1, 3, 5],
        [4, 4, 6, 0, 4, 5],
        [5, 0, 6, 6, 6, 5],
    ]);
    let after = |count, thing| holder(&lines[..count], thing);
    let qubit = Thing::Qubit(5);
    let channel = Thing::Channel(5);
    let (end_0, end_1) = (Thing::End(5, Zero), Thing::End(5, One));
    assert_eq!(after(0, qubit), None);
    assert_eq!(after(1, qubit), Some(2));
    assert_eq!(after(1, channel), None);
    assert_eq!(after(2, channel), Some(3));
    assert_eq!(after(2, end_0), Some(3));
    assert_eq!(after(2, end_1), Some(3));
    // Giving an end changes neither the other end's nor the channel's holder.
    assert_eq!(after(3, end_0), Some(4));
    assert_eq!(after(3, end_1), Some(3));
    assert_eq!(after(3, channel), Some(3));
    assert_eq!(after(4, qubit), Some(1));
    // Giving the channel counts for both ends.
    assert_eq!(after(5, end_0), Some(0));
    assert_eq!(after(5, end_1), Some(0));
    assert_eq!(after(6, end_1), Some(6));
    assert_eq!(after(6, end_0), Some(0));
    assert_eq!(after(6, Thing::Qubit(4)), None);
    assert_eq!(after(6, Thing::End(4, One)), None);
}

/// A process with these values in its first slots.
fn process_with(values: &[Value]) -> Process {
    start_process(&program(&[main_method(&[], &[(RET, 0)])]), 0, values)
}

#[test]
fn an_end_is_reached_through_its_channel() {
    let mut process = process_with(&[Value::Channel(3), Value::Int(4)]);
    process.frames[0].pending.push(Value::Qubit(2));
    let expected = [Thing::Channel(3), Thing::End(3, Zero), Thing::End(3, One), Thing::Qubit(2)];
    assert_eq!(reach(&process), expected);
    process.frames.clear();
    assert_eq!(reach(&process), []);
}

/// A configuration of two processes with these values in their slots.
fn two_processes(first: Value, second: Value) -> Configuration {
    let processes = vec![process_with(&[first]), process_with(&[second])];
    Configuration { processes, qubits: 2, channels: 2, holders: Holders::default() }
}

#[test]
fn ownership_can_fail_on_reach() {
    let made = lines_of(&[[0, 0, 1, 0, U, U], [1, 0, 2, 0, U, U]]);
    let fails = |first, second| ownership(&two_processes(first, second), &made).is_err();
    assert!(!fails(Q, GONE));
    assert!(!fails(C, GONE));
    // Held by 0, reached by 1; and in reach of both.
    assert!(fails(GONE, Q));
    assert!(fails(Q, Q));
    assert!(fails(C, E1));
    assert!(fails(GONE, E0));
    // Never made.
    assert!(fails(Value::Qubit(1), GONE));
    let given = lines_of(&[[1, 0, 2, 0, U, U], [2, 0, 6, 1, 6, 0]]);
    let holds = |first, second| ownership(&two_processes(first, second), &given).is_ok();
    assert!(holds(E0, E1));
    assert!(!holds(C, GONE));
    assert!(!holds(E1, GONE));
}

#[test]
fn ownership_can_fail_on_lines() {
    let fails = |words: &[[u16; 6]]| {
        let lines = lines_of(words);
        ownership(&two_processes(GONE, GONE), &lines).is_err()
    };
    let made = [0, 0, 1, 0, U, U];
    let other = [0, 1, 1, 1, U, U];
    assert!(!fails(&[made, [1, 0, 3, 4, 0, U]]));
    assert!(fails(&[made, [1, 1, 3, 4, 0, U]]));
    assert!(fails(&[[1, 0, 3, 4, 0, U], made]));
    assert!(fails(&[made, other, [1, 0, 3, 6, 0, 1]]));
    assert!(fails(&[made, [1, 0, 6, 1, 3, 0], [2, 0, 4, 0, 1, U]]));
    assert!(!fails(&[made, [1, 0, 6, 1, 3, 0], [2, 1, 4, 0, 1, U]]));
    let channel = [0, 0, 2, 0, U, U];
    let gave = [1, 0, 6, 1, 6, 0];
    assert!(!fails(&[channel, gave, [2, 0, 7, 1, 0, 0]]));
    assert!(!fails(&[channel, gave, [2, 1, 7, 0, 0, 1]]));
    // The wrong side, and a receiver that does not hold the other end.
    assert!(fails(&[channel, gave, [2, 0, 7, 1, 0, 1]]));
    assert!(fails(&[channel, gave, [2, 0, 7, 2, 0, 0]]));
    assert!(fails(&[channel, [2, 0, 7, 1, 0, 0]]));
}

#[test]
fn an_end_never_taken_out_is_lost() {
    // The child has end 1; main had only the channel, which is emptied.
    let methods = [
        main_method(&[CHANNEL_INT], &[(NEWC, 1), (PUT, 0), (END, 1), (FORK, 1), (RET, 0)]),
        method(VOID, &[END_INT], &[], &[(RET, 0)]),
    ];
    let run = run_all(&methods, &[0; 4], &[]);
    assert_eq!(reach(&run.configuration.processes[0]), []);
    assert_eq!(holder(&run.lines, Thing::End(0, Zero)), Some(0));
    assert_eq!(holder(&run.lines, Thing::End(0, One)), Some(1));
}
