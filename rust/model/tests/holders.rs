//! Paper 7: the holders that the configuration stores. That they are those of
//! the lines is looked at after every entry of the other tests' runs, too.

mod common;

use common::*;
use data::program::op::*;
use data::{Fault, Holders, Line, Side, State, Thing};
use model::owner::stored_holders;
use model::state::hold;

/// The stored holders of the things that were made.
fn stored(run: &data::Run) -> Vec<(Thing, u16)> {
    let holders = &run.configuration.holders;
    Holders::things().filter_map(|thing| Some((thing, holders.of(thing)?))).collect()
}

const END_0: Thing = Thing::End(0, Side::Zero);
const END_1: Thing = Thing::End(0, Side::One);

/// Main makes a qubit and a channel, gives end 1 to a child, sends it the qubit,
/// and is stopped; the child finishes.
#[test]
fn each_holder_after_each_entry() {
    let main = [
        [(NEWQ, 0), (PUT, 0), (DROP, 0), (NEWC, 3), (PUT, 1), (END, 0), (PUT, 2), (DROP, 0), (GET, 1)],
        [(END, 1), (FORK, 1), (GET, 2), (GET, 0), (SEND, 0), (GET, 0), (MEAS, 0), (DROP, 0), (RET, 0)],
    ];
    let child = [(GET, 0), (RECV, 0), (GATE, 4), (RET, 0)];
    let methods =
        [main_method(&[QBIT, CHANNEL_QBIT, END_QBIT], &main.concat()), method(VOID, &[END_QBIT], &[], &child)];
    let schedule = [0, 0, 0, 0, 0, 0, 0, 0, 0, 0, 0, 1, 0, 0, 0, 1, 1, 0];
    let q = Thing::Qubit(0);
    for (entries, expected) in [
        (0, vec![]),
        (1, vec![(q, 0)]),
        (4, vec![(q, 0), (END_0, 0), (END_1, 0)]),
        (10, vec![(q, 0), (END_0, 0), (END_1, 0)]),
        (11, vec![(q, 0), (END_0, 0), (END_1, 1)]),
        (14, vec![(q, 0), (END_0, 0), (END_1, 1)]),
        (15, vec![(q, 1), (END_0, 0), (END_1, 1)]),
        // The child has finished and main has stopped: both keep what they held.
        (18, vec![(q, 1), (END_0, 0), (END_1, 1)]),
    ] {
        assert_eq!(stored(&run_all(&methods, &schedule[..entries], &[])), expected, "{entries} entries");
    }
    let last = run_all(&methods, &schedule, &[]).configuration.processes;
    assert_eq!([last[0].state, last[1].state], [State::Stopped(Fault::Empty), State::Finished]);
}

/// A channel that is given takes both its ends along; its maker may have cleared
/// it before.
#[test]
fn a_channel_is_both_its_ends() {
    let main = [(NEWC, 1), (FORK, 1), (NEWC, 2), (PUT, 0), (DROP, 0), (CLEAR, 0), (RET, 0)];
    let methods = [main_method(&[CHANNEL_BOOL], &main), method(VOID, &[CHANNEL_INT], &[], &[(RET, 0)])];
    let run = run_all(&methods, &[0, 0, 0, 0, 0, 0, 1, 0], &[]);
    let second = [Side::Zero, Side::One].map(|side| (Thing::End(1, side), 0));
    assert_eq!(stored(&run), [[(END_0, 1), (END_1, 1)], second].concat());
}

/// A making that faults and an entry that is not taken store nothing.
#[test]
fn what_is_not_made_is_not_held() {
    let mut code = [(NEWQ, 0), (DROP, 0)].repeat(33);
    code.push((RET, 0));
    let run = run_all(&[main_method(&[], &code)], &[0; 70], &[]);
    assert_eq!(run.configuration.processes[0].state, State::Stopped(Fault::Qubits));
    assert_eq!(stored(&run).len(), 32);
    let program = program(&[main_method(&[], &code)]);
    let cut = model::run(&program, &[0; 70], &[], 6 * 3);
    assert_eq!((answer(&cut), stored(&cut).len()), ((3, 6, 3, 0), 3));
}

#[test]
fn a_wrong_store_is_told() {
    let run = run_all(&[main_method(&[], &[(NEWC, 1), (DROP, 0), (RET, 0)])], &[0; 3], &[]);
    let fails = |thing, process, lines: &[Line]| {
        let mut config = run.configuration.clone();
        hold(&mut config.holders, thing, process);
        stored_holders(&config, lines).is_err()
    };
    assert!(!fails(END_1, 0, &run.lines));
    assert!(fails(END_1, 1, &run.lines));
    assert!(fails(Thing::Qubit(31), 0, &run.lines));
    assert!(fails(END_1, 0, &run.lines[1..]));
}
