//! Paper 6: a process whose partner has gone is stopped by 33.

mod common;

use common::*;
use data::program::{op::*, Method};
use data::{End, Fault, Side, State, Value};
use model::gone::NoPartner;
use model::machine::{EntryResult, Machine, Readiness};

const STOPPED: EntryResult = EntryResult::Stopped(Fault::Gone);

/// Main makes a channel of ints, keeps end 0 in slot 1 and forks a child with
/// end 1, in eight entries; then both go on with their own code.
fn pair(main_code: &[(u16, u16)], child_code: &[(u16, u16)]) -> Vec<Method> {
    let make = [(NEWC, 1), (PUT, 0), (END, 0), (PUT, 1), (DROP, 0), (GET, 0), (END, 1), (FORK, 1)];
    let main = [&make, main_code].concat();
    vec![main_method(&[CHANNEL_INT, END_INT, QBIT], &main), method(VOID, &[END_INT], &[QBIT], child_code)]
}

const SEND_FROM_MAIN: [(u16, u16); 4] = [(GET, 1), (INT, 5), (SEND, 0), (RET, 0)];
const RECEIVE_IN_MAIN: [(u16, u16); 4] = [(GET, 1), (RECV, 0), (DROP, 0), (RET, 0)];
const RECEIVE: [(u16, u16); 4] = [(GET, 0), (RECV, 0), (DROP, 0), (RET, 0)];

/// Main at SEND and at RECV, with the entries up to there.
fn at_both_ops() -> [(&'static [(u16, u16)], usize); 2] {
    [(&SEND_FROM_MAIN, 10), (&RECEIVE_IN_MAIN, 9)]
}

#[test]
fn the_holder_has_finished_or_stopped() {
    for (code, entries) in at_both_ops() {
        // A GET of an empty slot stops the child.
        for (child, why) in
            [(&[(RET, 0)][..], NoPartner::Finished), (&[(GET, 1), (DROP, 0), (RET, 0)], NoPartner::Stopped)]
        {
            let program = program(&pair(code, child));
            let mut machine = Machine::new(&program, &[], AMPLE);
            drive(&mut machine, &vec![0; entries]);
            // The child runs: main waits, for ever if need be.
            assert_eq!((machine.readiness(0), machine.gone_for(0)), (Readiness::Waits, None));
            assert_eq!(drive(&mut machine, &[0, 0]), [EntryResult::Idle, EntryResult::Idle]);
            drive(&mut machine, &[1]);
            assert_eq!((machine.readiness(0), machine.gone_for(0)), (Readiness::Steps, Some(why)));
            assert_eq!(machine.end_reached(), None);
            let before = machine.config.processes[0].frames.clone();
            assert_eq!(drive(&mut machine, &[0]), [STOPPED]);
            // It keeps everything, and uses nothing but its line.
            assert_eq!(machine.config.processes[0].frames, before);
            assert_eq!(machine.config.processes[0].state, State::Stopped(Fault::Gone));
            let last = machine.lines.last().map(|line| line.words());
            assert_eq!(last, Some([entries as u16 + 3, 0, 10, 33, U, U]));
            assert_eq!(machine.end_reached(), Some(End::AllOver));
        }
    }
}

/// "Itself counts however it came about": a process that made the channel, one
/// that got the channel, one that got both ends.
#[test]
fn the_holder_is_itself() {
    let makes = |rest: &[(u16, u16)]| vec![main_method(&[], &[&[(NEWC, 1), (END, 0)], rest].concat())];
    for (rest, entries) in [(&[(INT, 1), (SEND, 0), (RET, 0)][..], 3), (&[(RECV, 0), (DROP, 0), (RET, 0)], 2)] {
        // It does not meet itself over both its ends, and does not wait for itself.
        let run = run_all(&makes(rest), &vec![0; entries], &[]);
        assert_eq!(answer(&run), (0, entries, 1, 0));
        let run = run_all(&makes(rest), &[0; 9], &[]);
        assert_eq!(answer(&run), (1, entries + 1, 2, 0));
        assert_eq!(lines(&run)[1], [entries as u16, 0, 10, 33, U, U]);
    }
    let channel = [
        main_method(&[], &[(NEWC, 1), (FORK, 1), (RET, 0)]),
        method(VOID, &[CHANNEL_INT], &[], &[(GET, 0), (END, 1), (RECV, 0), (DROP, 0), (RET, 0)]),
    ];
    let run = run_all(&channel, &[0, 0, 1, 1, 1], &[]);
    assert_eq!((answer(&run), lines(&run)[3]), ((0, 5, 4, 0), [4, 1, 10, 33, U, U]));
    let make = [(NEWC, 1), (PUT, 0), (DROP, 0), (GET, 0), (END, 0), (GET, 0), (END, 1), (FORK, 1), (RET, 0)];
    let ends = [main_method(&[CHANNEL_INT], &make), method(VOID, &[END_INT, END_INT], &[], &RECEIVE)];
    let run = run_all(&ends, &[&[0; 8][..], &[1, 1]].concat(), &[]);
    assert_eq!((answer(&run), lines(&run)[4]), ((0, 10, 5, 0), [9, 1, 10, 33, U, U]));
}

/// "Gone goes by holder, not by reach": main has cleared its last reference to
/// its end, and the child waits as long as main runs.
#[test]
fn a_holder_that_lost_its_reference_is_there() {
    let program = program(&pair(&[(CLEAR, 1), (CLEAR, 0), (JUMP, 8)], &RECEIVE));
    let mut machine = Machine::new(&program, &[], AMPLE);
    drive(&mut machine, &[0, 0, 0, 0, 0, 0, 0, 0, 0, 0, 1]);
    let reached = model::owner::reach(&machine.config.processes[0]);
    assert_eq!(reached, []);
    assert_eq!(machine.readiness(1), Readiness::Waits);
    assert_eq!(
        drive(&mut machine, &[1, 0, 0, 1]),
        [EntryResult::Idle, EntryResult::Stepped, EntryResult::Stepped, EntryResult::Idle]
    );
    // When it goes, the child does.
    let methods = pair(&[(CLEAR, 1), (RET, 0)], &RECEIVE);
    let run = run_all(&methods, &[0, 0, 0, 0, 0, 0, 0, 0, 0, 1, 1, 0, 1], &[]);
    assert_eq!((answer(&run), lines(&run)[4]), ((1, 13, 5, 0), [12, 1, 10, 33, U, U]));
}

/// An end that was given on goes with its new holder.
#[test]
fn the_holder_is_the_last_one() {
    // The child gives end 1 to a grandchild and finishes; main waits for that one.
    let mut methods = pair(&SEND_FROM_MAIN, &[(GET, 0), (FORK, 2), (RET, 0)]);
    methods.push(method(VOID, &[END_INT], &[], &RECEIVE));
    let program = program(&methods);
    let mut machine = Machine::new(&program, &[], AMPLE);
    drive(&mut machine, &[&[0; 10][..], &[1, 1, 1]].concat());
    assert_eq!(machine.config.processes[1].state, State::Finished);
    assert_eq!(machine.readiness(0), Readiness::Waits);
    assert_eq!(drive(&mut machine, &[2, 0]), [EntryResult::Stepped, EntryResult::Met(2)]);
}

/// "judged after fault 20": an emptied operand is 20, whoever has gone.
#[test]
fn fault_20_comes_first() {
    // Slot 2's qubit is pending at SEND while a called method forks it away.
    let make = [(NEWC, 3), (PUT, 0), (END, 0), (PUT, 1), (DROP, 0), (NEWQ, 0), (PUT, 2), (DROP, 0)];
    let send = [(GET, 1), (GET, 2), (GET, 2), (CALL, 1), (SEND, 0), (RET, 0)];
    let methods = [
        main_method(&[CHANNEL_QBIT, END_QBIT, QBIT], &[&make[..], &send].concat()),
        method(VOID, &[QBIT], &[], &[(GET, 0), (FORK, 2), (RET, 0)]),
        method(VOID, &[QBIT], &[], &[(RET, 0)]),
    ];
    // Main holds both ends, so it would be 33.
    let run = run_all(&methods, &[0; 16], &[]);
    let frame = &run.configuration.processes[0].frames[0];
    assert_eq!(frame.pending, [Value::End(0, Side::Zero), Value::Empty]);
    assert_eq!(run.configuration.processes[0].state, State::Stopped(Fault::Empty));
}

/// Stations that go one after the other: each waits for the one before, and the
/// first finishes. "Stopped by any fault, 33 too."
#[test]
fn one_after_the_other() {
    let main = [(NEWC, 1), (END, 1), (INT, 5), (FORK, 1), (RET, 0)];
    // A station forks the next one, so long as its number is above 0, and waits
    // for the one before.
    let station = [
        [(INT, 0), (GET, 1), (LESS, 0), (JFALSE, 10), (NEWC, 1), (END, 1), (GET, 1)],
        [(INT, 1), (SUB, 0), (FORK, 1), (GET, 0), (RECV, 0), (DROP, 0), (RET, 0)],
    ];
    let methods = [main_method(&[], &main), method(VOID, &[END_INT, INT_TYPE], &[], &station.concat())];
    // Main goes to its RET, each station to its RECV; the last one in five entries.
    let mut schedule = vec![0; 4];
    (1..=5).for_each(|station| schedule.extend([station; 11]));
    schedule.extend([6; 5]);
    let ready = run_all(&methods, &schedule, &[]);
    assert_eq!(answer(&ready), (0, 4 + 55 + 5, 18, 0));
    // All of them wait: nothing else can move but main.
    let in_vain = run_all(&methods, &[&schedule[..], &[6, 5, 4, 3, 2, 1]].concat(), &[]);
    assert_eq!(in_vain.lines, ready.lines);
    schedule.extend([0, 2, 1, 3, 2, 3, 4, 6, 5, 6]);
    let run = run_all(&methods, &schedule, &[]);
    assert_eq!(answer(&run), (1, 74, 25, 0));
    let stopped: Vec<[u16; 6]> = lines(&run).into_iter().filter(|line| line[2] == 10).collect();
    let expected = [[66, 1], [68, 2], [69, 3], [70, 4], [72, 5], [73, 6]];
    assert_eq!(stopped, expected.map(|[entry, process]| [entry, process, 10, 33, U, U]));
}

/// The line of the fault has to fit, like any other.
#[test]
fn without_room_it_is_not_taken() {
    let program = program(&pair(&SEND_FROM_MAIN, &[(RET, 0)]));
    let schedule = [0, 0, 0, 0, 0, 0, 0, 0, 0, 0, 1, 0];
    let cut = model::run(&program, &schedule, &[], 6 * 4);
    assert_eq!(answer(&cut), (3, 11, 4, 0));
    let whole = model::run(&program, &schedule, &[], 6 * 5);
    assert_eq!(answer(&whole), (1, 12, 5, 0));
}

/// Two that wait for each other are still stuck.
#[test]
fn waiting_for_each_other_is_end_2() {
    let run = run_all(&pair(&RECEIVE_IN_MAIN, &RECEIVE), &[0, 0, 0, 0, 0, 0, 0, 0, 0, 1, 0, 1], &[]);
    assert_eq!(answer(&run), (2, 10, 3, 0));
}
