//! Entries, waiting, meetings and the four ends.

mod common;

use common::*;
use data::program::{op::*, Method};
use data::{End, Side, Value};
use model::machine::{run, EntryResult, Machine, Readiness};

/// Main makes a channel, keeps end 0 and forks a child with end 1. Main's
/// entries 0 to 7; then both go on with their own code, the end in slot 1 of
/// main and slot 0 of the child.
fn pair(carried: u16, main_code: &[(u16, u16)], child_code: &[(u16, u16)]) -> Vec<Method> {
    let make = [(NEWC, carried), (PUT, 0), (END, 0), (PUT, 1), (DROP, 0), (GET, 0), (END, 1), (FORK, 1)];
    let main_slots = [16 + carried, 32 + carried, carried];
    let main = [&make, main_code].concat();
    vec![main_method(&main_slots, &main), method(VOID, &[32 + carried], &[carried], child_code)]
}

const MADE: [u8; 8] = [0; 8];

/// A schedule that starts with the eight entries of the making.
fn after_making(rest: &[u8]) -> Vec<u8> {
    [&MADE, rest].concat()
}

#[test]
fn end_0_schedule_used_up() {
    let methods = [main_method(&[INT_TYPE], &[(CLEAR, 0), (JUMP, 0)])];
    assert_eq!(answer(&run_all(&methods, &[0; 5], &[])), (0, 5, 0, 0));
    // Bytes for processes not made are idle and count.
    let bytes = [0, 1, 7, 8, 255, 0];
    assert_eq!(answer(&run_all(&methods, &bytes, &[])), (0, 6, 0, 0));
}

#[test]
fn end_1_all_over() {
    let methods = [main_method(&[], &[(RET, 0)])];
    let run = run_all(&methods, &[0], &[]);
    // After the last entry the ends are asked once more: 1, not 0.
    assert_eq!(answer(&run), (1, 1, 1, 0));
    let run = run_all(&methods, &[3, 0, 0, 0], &[]);
    assert_eq!(answer(&run), (1, 2, 1, 0));
    assert_eq!(lines(&run), [[1, 0, 9, U, U, U]]);
}

#[test]
fn end_1_wants_every_process_over() {
    let methods =
        [main_method(&[], &[(FORK, 1), (RET, 0)]), method(VOID, &[], &[INT_TYPE], &[(GET, 0), (DROP, 0), (RET, 0)])];
    assert_eq!(answer(&run_all(&methods, &[0, 0, 0], &[])), (0, 3, 2, 0));
    assert_eq!(answer(&run_all(&methods, &[0, 0, 1, 1], &[])), (1, 3, 3, 0));
}

#[test]
fn end_2_both_at_the_same_op() {
    let send = [(GET, 1), (INT, 1), (SEND, 0), (RET, 0)];
    let child = [(GET, 0), (INT, 2), (SEND, 0), (RET, 0)];
    let methods = pair(1, &send, &child);
    let run = run_all(&methods, &after_making(&[0, 0, 1, 1, 0, 1]), &[]);
    assert_eq!(answer(&run), (2, 12, 3, 0));
    let receive = [(GET, 1), (RECV, 0), (DROP, 0), (RET, 0)];
    let child = [(GET, 0), (RECV, 0), (DROP, 0), (RET, 0)];
    let methods = pair(1, &receive, &child);
    let run = run_all(&methods, &after_making(&[0, 1]), &[]);
    assert_eq!(answer(&run), (2, 10, 3, 0));
}

#[test]
fn no_end_2_while_one_can_step_or_fault() {
    let send = [(GET, 1), (INT, 1), (SEND, 0), (RET, 0)];
    // The child faults at its first instruction that reads slot 1.
    let child = [(GET, 1), (DROP, 0), (RET, 0)];
    let methods = pair(1, &send, &child);
    let run = run_all(&methods, &after_making(&[0, 0, 0, 0]), &[]);
    assert_eq!(answer(&run), (0, 12, 3, 0));
    // Then main would be stopped by 33: Paper 6.
    let run = run_all(&methods, &after_making(&[0, 0, 0, 0, 1]), &[]);
    assert_eq!(answer(&run), (0, 13, 4, 0));
}

#[test]
fn end_3_lines_do_not_fit() {
    let send = [(GET, 1), (INT, 1), (SEND, 0), (RET, 0)];
    let child = [(GET, 0), (RECV, 0), (DROP, 0), (RET, 0)];
    let program = program(&pair(1, &send, &child));
    let schedule = after_making(&[0, 0, 1, 1, 0, 1, 1, 0]);
    // Room for the channel's line only: the FORK wants two.
    for words in [6, 12, 17] {
        let run = run(&program, &schedule, &[], words);
        assert_eq!(answer(&run), (3, 7, 1, 0));
        assert_eq!(run.configuration.processes.len(), 1);
        assert_eq!(run.configuration.processes[0].frames[0].place, 7);
        assert_eq!(run.configuration.processes[0].frames[0].pending, [Value::End(0, Side::One)]);
    }
    // Room for three: the meeting wants two, the entries without a line and
    // the idle ones go on with a full trace.
    for words in [18, 19, 24, 29] {
        let run = run(&program, &schedule, &[], words);
        assert_eq!(answer(&run), (3, 11, 3, 0));
    }
    // Room for five: met; the fifth line is the value, then RET wants one.
    let run = run(&program, &schedule, &[], 30);
    assert_eq!(answer(&run), (3, 12, 5, 0));
    assert_eq!(lines(&run)[3..], [[11, 0, 7, 1, 0, 0], [11, 0, 8, 1, 0, U]]);
}

#[test]
fn end_3_uses_no_outcome() {
    let code = [(NEWQ, 0), (MEAS, 0), (DROP, 0), (RET, 0)];
    let program = program(&[main_method(&[], &code)]);
    let run = run(&program, &[0; 4], &[1], 6);
    assert_eq!(answer(&run), (3, 1, 1, 0));
}

#[test]
fn end_3_a_fault_wants_one_line() {
    let methods = [main_method(&[QBIT], &[(GET, 0), (DROP, 0), (RET, 0)])];
    let program = program(&methods);
    assert_eq!(answer(&run(&program, &[1, 0], &[], 5)), (3, 1, 0, 0));
    assert_eq!(answer(&run(&program, &[1, 0], &[], 6)), (1, 2, 1, 0));
}

#[test]
fn ends_1_and_2_come_before_3() {
    // With a full trace and nothing left to do the run is over, not cut off.
    let program = program(&[main_method(&[], &[(RET, 0)])]);
    assert_eq!(answer(&run(&program, &[0, 0], &[], 6)), (1, 1, 1, 0));
    let receive = [(GET, 1), (RECV, 0), (DROP, 0), (RET, 0)];
    let child = [(GET, 0), (RECV, 0), (DROP, 0), (RET, 0)];
    let program = common::program(&pair(1, &receive, &child));
    assert_eq!(answer(&run(&program, &after_making(&[0, 1, 0]), &[], 18)), (2, 10, 3, 0));
}

#[test]
fn meeting_named_by_the_sender_and_by_the_receiver() {
    let send = [(GET, 1), (INT, 7), (SEND, 0), (RET, 0)];
    let child = [(GET, 0), (RECV, 0), (PUT, 1), (DROP, 0), (RET, 0)];
    let methods = pair(1, &send, &child);
    for named in [0, 1] {
        let run = run_all(&methods, &after_making(&[1, 0, 0, named, 1]), &[]);
        let met = [[11, 0, 7, 1, 0, 0], [11, 0, 8, 7, 0, U]];
        assert_eq!(lines(&run)[3..], met);
        assert_eq!(run.configuration.processes[0].frames[0].place, 11);
        assert_eq!(run.configuration.processes[1].frames[0].slots[1], Value::Int(7));
    }
}

#[test]
fn meeting_without_having_been_named_there_before() {
    let send = [(GET, 1), (INT, 7), (SEND, 0), (RET, 0)];
    let child = [(GET, 0), (RECV, 0), (DROP, 0), (RET, 0)];
    let program = program(&pair(1, &send, &child));
    let mut machine = Machine::new(&program, &[], AMPLE);
    drive(&mut machine, &after_making(&[0, 0]));
    assert_eq!(machine.readiness(0), Readiness::Waits);
    assert_eq!(machine.readiness(1), Readiness::Steps);
    assert_eq!(drive(&mut machine, &[0, 0, 1]), [EntryResult::Idle, EntryResult::Idle, EntryResult::Stepped]);
    assert_eq!(machine.readiness(0), Readiness::Meets(1));
    assert_eq!(machine.readiness(1), Readiness::Meets(0));
    assert_eq!(drive(&mut machine, &[1]), [EntryResult::Met(0)]);
    assert_eq!(machine.readiness(2), Readiness::NotStarted);
    assert_eq!(drive(&mut machine, &[0, 0, 1, 1]).len(), 4);
    assert_eq!(machine.entry(0), Err(End::AllOver));
    assert_eq!(machine.entries, 8 + 2 + 3 + 1 + 4);
}

#[test]
fn the_child_may_send_over_side_1() {
    let receive = [(GET, 1), (RECV, 0), (PUT, 2), (DROP, 0), (RET, 0)];
    let child = [(GET, 0), (BOOL, 1), (SEND, 0), (RET, 0)];
    let methods = pair(2, &receive, &child);
    let run = run_all(&methods, &after_making(&[1, 1, 0, 0, 0]), &[]);
    let met = [[11, 1, 7, 0, 0, 1], [11, 1, 8, 1, 0, U]];
    assert_eq!(lines(&run)[3..], met);
    assert_eq!(run.configuration.processes[0].frames[0].slots[2], Value::Bool(true));
}

/// The two halves of an int as its kind 8 line has them.
fn sent_halves(code: &[(u16, u16)]) -> [u16; 6] {
    let send = [&[(GET, 1)], code, &[(SEND, 0), (RET, 0)]].concat();
    let child = [(GET, 0), (RECV, 0), (DROP, 0), (RET, 0)];
    let methods = pair(1, &send, &child);
    let schedule = after_making(&[&[1], &vec![0; 2 + code.len()][..]].concat());
    let run = run_all(&methods, &schedule, &[]);
    lines(&run)[4]
}

#[test]
fn ints_are_sent_in_two_halves() {
    assert_eq!(sent_halves(&[(INT, 65_535)])[2..], [8, 65_535, 65_535, U]);
    assert_eq!(sent_halves(&[(INT, 32_768)])[2..], [8, 32_768, 65_535, U]);
    assert_eq!(sent_halves(&[(INT, 5)])[2..], [8, 5, 0, U]);
    let large = [(INT, 32_767), (INT, 32_767), (ADD, 0), (INT, 3), (ADD, 0)];
    assert_eq!(sent_halves(&large)[2..], [8, 1, 1, U]);
    let small = [(INT, 32_768), (INT, 32_768), (ADD, 0), (INT, 1), (SUB, 0)];
    // -65537 is 0xFFFEFFFF.
    assert_eq!(sent_halves(&small)[2..], [8, 65_535, 65_534, U]);
}

#[test]
fn a_false_boolean_is_0_0() {
    let send = [(GET, 1), (BOOL, 0), (SEND, 0), (RET, 0)];
    let child = [(GET, 0), (RECV, 0), (DROP, 0), (RET, 0)];
    let run = run_all(&pair(2, &send, &child), &after_making(&[1, 0, 0, 0]), &[]);
    assert_eq!(lines(&run)[4], [11, 0, 8, 0, 0, U]);
}

#[test]
fn another_channel_is_no_partner() {
    // Two channels; main sends on the first, the child receives on the other.
    let main = [
        [(NEWC, 1), (PUT, 0), (END, 0), (PUT, 1), (DROP, 0), (NEWC, 1), (PUT, 2)],
        [(END, 0), (PUT, 3), (DROP, 0), (GET, 0), (END, 1), (GET, 2), (END, 1)],
        [(FORK, 1), (GET, 1), (INT, 1), (SEND, 0), (GET, 3), (DROP, 0), (RET, 0)],
    ];
    let slots = [CHANNEL_INT, END_INT, CHANNEL_INT, END_INT];
    let child = [(GET, 1), (RECV, 0), (DROP, 0), (RET, 0)];
    let methods = [main_method(&slots, &main.concat()), method(VOID, &[END_INT, END_INT], &[], &child)];
    let run = run_all(&methods, &[&[0; 17][..], &[1, 0, 1]].concat(), &[]);
    assert_eq!(answer(&run), (2, 18, 5, 0));
}

#[test]
fn values_stay_pending_across_a_meeting() {
    let send = [(GET, 1), (INT, 7), (SEND, 0), (RET, 0)];
    let child = [(INT, 1), (GET, 0), (RECV, 0), (ADD, 0), (DROP, 0), (RET, 0)];
    let run = run_all(&pair(1, &send, &child), &after_making(&[1, 1, 0, 0, 0]), &[]);
    let frame = &run.configuration.processes[1].frames[0];
    assert_eq!(frame.pending, [Value::Int(1), Value::Int(7)]);
    assert_eq!(frame.slots[0], Value::End(0, Side::One));
}

/// Main receives over side 0 and waits; the child stands at SEND with an
/// emptied value, or with an emptied end.
fn not_ready(child: &[(u16, u16)], given: u16) -> Vec<Method> {
    let receive = [(GET, 1), (RECV, 0), (DROP, 0), (RET, 0)];
    let mut methods = pair(3, &receive, child);
    methods[1].slots[1] = QBIT;
    methods.push(method(VOID, &[given], &[], &[(GET, 0), (FORK, 3), (RET, 0)]));
    methods.push(method(VOID, &[given], &[], &[(RET, 0)]));
    methods
}

#[test]
fn a_partner_with_an_emptied_operand_is_not_ready() {
    let value_gone = [(NEWQ, 0), (PUT, 1), (DROP, 0), (GET, 0), (GET, 1), (GET, 1), (CALL, 2), (SEND, 0), (RET, 0)];
    let end_gone = [(GET, 0), (NEWQ, 0), (GET, 0), (CALL, 2), (SEND, 0), (RET, 0)];
    for (child, given, steps) in [(&value_gone[..], QBIT, 10), (&end_gone[..], END_QBIT, 7)] {
        let program = program(&not_ready(child, given));
        let mut machine = Machine::new(&program, &[], AMPLE);
        drive(&mut machine, &after_making(&[0]));
        drive(&mut machine, &vec![1; steps]);
        assert_eq!(machine.op_of(1), Some(model::table::Op::Send));
        assert_eq!(machine.readiness(0), Readiness::Waits);
        assert_eq!(machine.readiness(1), Readiness::Steps);
        assert_eq!(drive(&mut machine, &[0]), [EntryResult::Idle]);
        let fault = data::Fault::Empty;
        assert_eq!(drive(&mut machine, &[1]), [EntryResult::Stopped(fault)]);
    }
}

#[test]
fn a_receiver_with_an_emptied_end_is_not_ready() {
    let send = [(GET, 1), (INT, 7), (SEND, 0), (RET, 0)];
    let child = [(GET, 0), (GET, 0), (CALL, 2), (RECV, 0), (DROP, 0), (RET, 0)];
    let mut methods = pair(1, &send, &child);
    methods.push(method(VOID, &[END_INT], &[], &[(GET, 0), (FORK, 3), (RET, 0)]));
    methods.push(method(VOID, &[END_INT], &[], &[(GET, 0), (RECV, 0), (DROP, 0), (RET, 0)]));
    let program = program(&methods);
    let mut machine = Machine::new(&program, &[], AMPLE);
    drive(&mut machine, &after_making(&[0, 0, 1, 1, 1, 1, 1, 1]));
    assert_eq!(machine.op_of(1), Some(model::table::Op::Receive));
    assert_eq!(machine.readiness(0), Readiness::Waits);
    // The grandchild has the end: main meets it, not the child.
    drive(&mut machine, &[2]);
    assert_eq!(machine.readiness(0), Readiness::Meets(2));
    assert_eq!(drive(&mut machine, &[0]), [EntryResult::Met(2)]);
}

#[test]
fn an_entry_not_taken_changes_nothing() {
    let program = program(&[main_method(&[], &[(NEWQ, 0), (MEAS, 0), (DROP, 0), (RET, 0)])]);
    let mut machine = Machine::new(&program, &[0], 6);
    drive(&mut machine, &[0]);
    let before = machine.clone();
    assert_eq!(machine.entry(0), Err(End::TraceFull));
    assert_eq!(machine.config, before.config);
    assert_eq!(machine.lines, before.lines);
    assert_eq!((machine.entries, machine.outcomes_used), (1, 0));
    // An idle entry is still taken.
    assert_eq!(machine.entry(5), Ok(EntryResult::Idle));
}
