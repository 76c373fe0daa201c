//! What the single ops do, and every fault.

mod common;

use common::*;
use data::program::{op::*, Method};
use data::{Fault, Side, State, Value};
use model::machine::{EntryResult, Machine};

/// Runs main alone on as many entries as its code is long, less the RET.
fn pending_after(slots: &[u16], code: &[(u16, u16)], outcomes: &[u8]) -> Vec<Value> {
    // RET would want nothing pending, so the values are dropped by ops that
    // the schedule does not reach.
    let mut whole = code.to_vec();
    whole.extend([(DROP, 0), (RET, 0)]);
    let run = run_all(&[main_method(slots, &whole)], &vec![0; code.len()], outcomes);
    assert_eq!(run.entries, code.len());
    run.configuration.processes[0].frames[0].pending.clone()
}

#[test]
fn values_are_pushed() {
    assert_eq!(pending_after(&[], &[(INT, 32_767)], &[]), [Value::Int(32_767)]);
    assert_eq!(pending_after(&[], &[(INT, 32_768)], &[]), [Value::Int(-32_768)]);
    assert_eq!(pending_after(&[], &[(INT, 65_535)], &[]), [Value::Int(-1)]);
    assert_eq!(pending_after(&[], &[(BOOL, 0)], &[]), [Value::Bool(false)]);
    assert_eq!(pending_after(&[], &[(BOOL, 1)], &[]), [Value::Bool(true)]);
    let code = [(NEWC, 2), (END, 1)];
    assert_eq!(pending_after(&[], &code, &[]), [Value::End(0, Side::One)]);
}

#[test]
fn sub_and_less_put_the_deeper_first() {
    let two = |op| pending_after(&[], &[(INT, 7), (INT, 9), (op, 0)], &[]);
    assert_eq!(two(ADD), [Value::Int(16)]);
    assert_eq!(two(SUB), [Value::Int(-2)]);
    assert_eq!(two(LESS), [Value::Bool(true)]);
    assert_eq!(two(EQ), [Value::Bool(false)]);
    let swapped = [(INT, 9), (INT, 7), (LESS, 0)];
    assert_eq!(pending_after(&[], &swapped, &[]), [Value::Bool(false)]);
    let equal = [(INT, 7), (INT, 7), (LESS, 0)];
    assert_eq!(pending_after(&[], &equal, &[]), [Value::Bool(false)]);
    let equal = [(INT, 7), (INT, 7), (EQ, 0), (NOT, 0)];
    assert_eq!(pending_after(&[], &equal, &[]), [Value::Bool(false)]);
}

#[test]
fn put_leaves_the_top_and_clear_empties() {
    let code = [(INT, 5), (PUT, 3), (INT, 6), (PUT, 3), (ADD, 0)];
    let slots = [0, 0, 0, INT_TYPE];
    assert_eq!(pending_after(&slots, &code, &[]), [Value::Int(11)]);
    let code = [(INT, 5), (PUT, 3), (DROP, 0), (CLEAR, 3), (CLEAR, 3), (RET, 0)];
    let methods = [main_method(&slots, &code)];
    let slot_after = |entries| {
        let run = run_all(&methods, &vec![0; entries], &[]);
        run.configuration.processes[0].frames[0].slots[3]
    };
    assert_eq!(slot_after(1), Value::Empty);
    assert_eq!(slot_after(3), Value::Int(5));
    assert_eq!(slot_after(4), Value::Empty);
    // Clearing an empty slot is no fault.
    assert_eq!(slot_after(5), Value::Empty);
}

#[test]
fn gates_name_the_deeper_first() {
    let mut code = vec![(NEWQ, 0), (PUT, 0), (DROP, 0), (NEWQ, 0), (PUT, 1), (DROP, 0)];
    for gate in 1..=5 {
        code.extend([(GET, 1), (GATE, gate)]);
    }
    for gate in 6..=8 {
        code.extend([(GET, 1), (GET, 0), (GATE, gate)]);
    }
    code.push((RET, 0));
    let run = run_all(&[main_method(&[QBIT, QBIT], &code)], &[0; 26], &[]);
    let expected = [
        [0, 0, 1, 0, U, U],
        [3, 0, 1, 1, U, U],
        [7, 0, 3, 1, 1, U],
        [9, 0, 3, 2, 1, U],
        [11, 0, 3, 3, 1, U],
        [13, 0, 3, 4, 1, U],
        [15, 0, 3, 5, 1, U],
        [18, 0, 3, 6, 1, 0],
        [21, 0, 3, 7, 1, 0],
        [24, 0, 3, 8, 1, 0],
        [25, 0, 9, U, U, U],
    ];
    assert_eq!(lines(&run), expected);
    assert_eq!(answer(&run), (1, 26, 11, 0));
}

#[test]
fn measurements_use_the_outcomes_in_order() {
    let code = [(NEWQ, 0), (PUT, 0), (MEAS, 0), (GET, 0), (MEAS, 0), (SUB, 0)];
    assert_eq!(pending_after(&[QBIT], &code, &[1, 0, 1]), [Value::Int(1)]);
    assert_eq!(pending_after(&[QBIT], &code, &[0, 1]), [Value::Int(-1)]);
}

/// Paper 3: "MEAS pushes 2 and the line says 2".
#[test]
fn no_click_is_the_int_2() {
    let code = [(NEWQ, 0), (PUT, 0), (MEAS, 0), (GET, 0), (MEAS, 0), (SUB, 0), (PUT, 1), (DROP, 0), (RET, 0)];
    let methods = [main_method(&[QBIT, INT_TYPE], &code)];
    for (outcomes, difference) in [([2, 0], 2), ([0, 2], -2), ([1, 2], -1), ([2, 2], 0)] {
        let run = run_all(&methods, &[0; 8], &outcomes);
        let [first, second] = outcomes.map(u16::from);
        assert_eq!(lines(&run), [[0, 0, 1, 0, U, U], [2, 0, 4, 0, first, U], [4, 0, 4, 0, second, U]]);
        assert_eq!(run.configuration.processes[0].frames[0].slots[1], Value::Int(difference));
        // A miss is used up like a click.
        assert_eq!(answer(&run), (0, 8, 3, 2));
    }
}

/// A miss is no fault, and the qubit can be measured again; 24 still comes
/// where the list is used up.
#[test]
fn no_click_leaves_the_process_running() {
    let code = [(NEWQ, 0), (PUT, 0), (DROP, 0), (GET, 0), (MEAS, 0), (INT, 2), (EQ, 0), (JFALSE, 0), (JUMP, 3)];
    let run = run_all(&[main_method(&[QBIT], &code)], &[0; 60], &[2, 2, 1, 2]);
    let measured: Vec<[u16; 6]> = lines(&run).into_iter().filter(|line| line[2] == 4).collect();
    // The 1 sends main back to its NEWQ, and the last miss falls on qubit 1.
    assert_eq!(measured, [[4, 0, 4, 0, 2, U], [10, 0, 4, 0, 2, U], [16, 0, 4, 0, 1, U], [24, 0, 4, 1, 2, U]]);
    assert_eq!(lines(&run).last(), Some(&[30, 0, 10, 24, U, U]));
    assert_eq!(answer(&run), (1, 31, 7, 4));
}

/// "A run without any 2 gives what it gave before", also where the list goes
/// on with a 2 that no MEAS comes to.
#[test]
fn a_2_that_is_not_used_changes_nothing() {
    let code = [(NEWQ, 0), (MEAS, 0), (DROP, 0), (JUMP, 0)];
    let methods = [main_method(&[], &code)];
    let before = run_all(&methods, &[0; 8], &[1, 0]);
    assert_eq!(lines(&before)[1], [1, 0, 4, 0, 1, U]);
    assert_eq!(lines(&before)[3], [5, 0, 4, 1, 0, U]);
    assert_eq!(run_all(&methods, &[0; 8], &[1, 0, 2]), before);
}

#[test]
fn jumps() {
    // On false the qubit is left out; the jump back makes it a loop.
    let code = |condition| [(BOOL, condition), (JFALSE, 4), (NEWQ, 0), (DROP, 0), (NEWC, 1), (DROP, 0), (JUMP, 0)];
    let run = run_all(&[main_method(&[], &code(1))], &[0; 8], &[]);
    let expected = [[2, 0, 1, 0, U, U], [4, 0, 2, 0, U, U]];
    assert_eq!(lines(&run), expected);
    assert_eq!(run.configuration.processes[0].frames[0].place, 1);
    let run = run_all(&[main_method(&[], &code(0))], &[0; 8], &[]);
    let expected = [[2, 0, 2, 0, U, U], [7, 0, 2, 1, U, U]];
    assert_eq!(lines(&run), expected);
}

#[test]
fn call_and_return() {
    let main = [(INT, 1), (INT, 20), (INT, 30), (CALL, 1), (ADD, 0), (PUT, 0), (DROP, 0), (RET, 0)];
    let minus = [(GET, 0), (GET, 1), (SUB, 0), (CALL, 2), (RET, 0)];
    let methods = [
        main_method(&[INT_TYPE], &main),
        method(INT_TYPE, &[INT_TYPE, INT_TYPE], &[QBIT], &minus),
        method(VOID, &[], &[INT_TYPE], &[(RET, 0)]),
    ];
    let program = program(&methods);
    let mut machine = Machine::new(&program, &[], AMPLE);
    drive(&mut machine, &[0; 4]);
    let frames = &machine.config.processes[0].frames;
    assert_eq!(frames.len(), 2);
    // The caller's place stands after its CALL, its values stay pending.
    assert_eq!(frames[0].place, 4);
    assert_eq!(frames[0].pending, [Value::Int(1)]);
    // Counted over the table, after the eight instructions of main.
    assert_eq!((frames[1].method, frames[1].place), (1, 8));
    assert_eq!(frames[1].slots[..3], [Value::Int(20), Value::Int(30), Value::Empty]);
    drive(&mut machine, &[0; 4]);
    let frames = &machine.config.processes[0].frames;
    assert_eq!(frames.len(), 3);
    assert_eq!(frames[2].slots, [Value::Empty; 16]);
    assert_eq!(frames[1].pending, [Value::Int(-10)]);
    drive(&mut machine, &[0; 2]);
    let frames = &machine.config.processes[0].frames;
    assert_eq!(frames.len(), 1);
    assert_eq!(frames[0].pending, [Value::Int(1), Value::Int(-10)]);
    drive(&mut machine, &[0; 3]);
    assert_eq!(machine.config.processes[0].frames[0].slots[0], Value::Int(-9));
    assert!(machine.lines.is_empty());
}

#[test]
fn main_may_be_called_and_forked() {
    let code = [(CALL, 0), (FORK, 0), (RET, 0)];
    let run = run_all(&[main_method(&[], &code)], &[0; 8], &[]);
    // Entries 0 to 6 call up to eight frames, entry 7 is a ninth.
    assert_eq!(lines(&run), [[7, 0, 10, 25, U, U]]);
    let code = [(FORK, 0), (RET, 0)];
    let run = run_all(&[main_method(&[], &code)], &[0, 1, 1, 0], &[]);
    let expected = [[0, 0, 5, 1, 0, 0], [1, 1, 5, 2, 0, 0], [2, 1, 9, U, U, U], [3, 0, 9, U, U, U]];
    assert_eq!(lines(&run), expected);
}

#[test]
fn a_root_frame_discards_what_it_returns() {
    let code = [(FORK, 1), (FORK, 2), (RET, 0)];
    let methods = [
        main_method(&[], &code),
        method(INT_TYPE, &[], &[], &[(INT, 3), (RET, 0)]),
        method(QBIT, &[], &[], &[(NEWQ, 0), (RET, 0)]),
    ];
    let run = run_all(&methods, &[0, 0, 1, 1, 2, 2], &[]);
    let expected = [[0, 0, 5, 1, 1, 0], [1, 0, 5, 2, 2, 0], [3, 1, 9, U, U, U], [4, 2, 1, 0, U, U], [5, 2, 9, U, U, U]];
    assert_eq!(lines(&run), expected);
    assert_eq!(run.configuration.processes[2].state, State::Finished);
    assert!(run.configuration.processes[2].frames.is_empty());
}

/// Runs main alone to its fault: the fault line's entry and number.
fn fault_of(slots: &[u16], code: &[(u16, u16)], outcomes: &[u8]) -> (u16, u16) {
    let run = run_all(&[main_method(slots, code)], &[0; 200], outcomes);
    let last = run.lines.last().expect("a fault line");
    assert_eq!((run.end.number(), last.kind), (1, 10));
    (last.entry, last.a)
}

#[test]
fn fault_20_slot_read_is_empty() {
    for slot in [INT_TYPE, BOOL_TYPE, QBIT, CHANNEL_INT, END_BOOL] {
        let code = [(GET, 0), (DROP, 0), (RET, 0)];
        assert_eq!(fault_of(&[slot], &code, &[]), (0, 20));
    }
    let code = [(INT, 1), (PUT, 0), (DROP, 0), (CLEAR, 0), (GET, 0), (DROP, 0), (RET, 0)];
    assert_eq!(fault_of(&[INT_TYPE], &code, &[]), (4, 20));
}

/// Main pushes a thing of slot 0 (a qubit, or an end or the channel itself),
/// calls a method that forks it away, and then takes the emptied value.
fn emptied(kind: u16, before: &[(u16, u16)], after: &[(u16, u16)]) -> Vec<Method> {
    let make: &[(u16, u16)] = match kind {
        QBIT => &[(NEWQ, 0)],
        CHANNEL_INT => &[(NEWC, 1)],
        END_INT => &[(NEWC, 1), (END, 0)],
        _ => &[(NEWC, 3), (END, 0)],
    };
    let keep = [(PUT, 0), (DROP, 0)];
    let give = [(GET, 0), (CALL, 1)];
    let close = [(RET, 0)];
    let main = [make, &keep, before, &give, after, &close].concat();
    vec![
        main_method(&[kind], &main),
        method(VOID, &[kind], &[], &[(GET, 0), (FORK, 2), (RET, 0)]),
        method(VOID, &[kind], &[], &[(RET, 0)]),
        method(VOID, &[kind, INT_TYPE], &[], &[(RET, 0)]),
    ]
}

/// The fault of process 0 in such a program, and its pending values.
fn emptied_fault(methods: &[Method]) -> (u16, Vec<Value>) {
    let run = run_all(methods, &[0; 40], &[1]);
    let last = run.lines.last().expect("a fault line");
    assert_eq!((last.process, last.kind), (0, 10));
    assert_eq!(run.outcomes, 0);
    let frames = &run.configuration.processes[0].frames;
    (last.a, frames[0].pending.clone())
}

#[test]
fn fault_20_for_an_operand_of_every_op() {
    let get: &[(u16, u16)] = &[(GET, 0)];
    let takers: [(u16, &[(u16, u16)]); 6] = [
        (QBIT, &[(PUT, 0), (DROP, 0)]),
        (QBIT, &[(DROP, 0)]),
        (QBIT, &[(GATE, 3)]),
        (QBIT, &[(MEAS, 0), (DROP, 0)]),
        (CHANNEL_INT, &[(END, 1), (DROP, 0)]),
        (END_INT, &[(RECV, 0), (DROP, 0)]),
    ];
    for (kind, after) in takers {
        let methods = emptied(kind, get, after);
        assert_eq!(emptied_fault(&methods), (20, vec![Value::Empty]), "{after:?}");
    }
    // The end below a value that is there.
    let methods = emptied(END_INT, get, &[(INT, 4), (SEND, 0)]);
    let pending = vec![Value::Empty, Value::Int(4)];
    assert_eq!(emptied_fault(&methods), (20, pending));
    // Any argument of CALL and FORK, the last one full.
    for op in [CALL, FORK] {
        let methods = emptied(QBIT, get, &[(INT, 4), (op, 3)]);
        let pending = vec![Value::Empty, Value::Int(4)];
        assert_eq!(emptied_fault(&methods), (20, pending));
    }
}

#[test]
fn fault_20_comes_before_27() {
    let methods = emptied(QBIT, &[(GET, 0), (GET, 0)], &[(GATE, 8)]);
    let pending = vec![Value::Empty, Value::Empty];
    assert_eq!(emptied_fault(&methods), (20, pending));
}

#[test]
fn fault_20_comes_before_24() {
    let methods = emptied(QBIT, &[(GET, 0)], &[(MEAS, 0), (DROP, 0)]);
    let run = run_all(&methods, &[0; 40], &[]);
    assert_eq!(run.lines.last().map(|line| line.a), Some(20));
}

#[test]
fn fault_20_of_a_value_returned() {
    // The root frame's value counts too, though it would be discarded.
    let returns = [(GET, 0), (GET, 0), (CALL, 2), (RET, 0)];
    let methods = [
        main_method(&[], &[(NEWQ, 0), (FORK, 1), (RET, 0)]),
        method(QBIT, &[QBIT], &[], &returns),
        method(VOID, &[QBIT], &[], &[(GET, 0), (FORK, 3), (RET, 0)]),
        method(VOID, &[QBIT], &[], &[(RET, 0)]),
    ];
    let run = run_all(&methods, &[0, 0, 1, 1, 1, 1, 1, 1, 1], &[]);
    assert_eq!(lines(&run).last(), Some(&[8, 1, 10, 20, U, U]));
    let child = &run.configuration.processes[1];
    assert_eq!(child.state, State::Stopped(Fault::Empty));
    assert_eq!(child.frames[0].pending, [Value::Empty]);
    // The fourth instruction after the three of main.
    assert_eq!(child.frames[0].place, 6);
}

#[test]
fn fault_20_comes_before_23() {
    // Seven children, then a FORK with an emptied argument: 20, not 23.
    let mut main = vec![(FORK, 3); 6];
    main.extend([(NEWQ, 0), (PUT, 0), (GET, 0), (CALL, 1), (FORK, 2), (RET, 0)]);
    let methods = [
        main_method(&[QBIT], &main),
        method(VOID, &[QBIT], &[], &[(GET, 0), (FORK, 2), (RET, 0)]),
        method(VOID, &[QBIT], &[], &[(RET, 0)]),
        method(VOID, &[], &[], &[(RET, 0)]),
    ];
    let run = run_all(&methods, &[0; 14], &[]);
    assert_eq!(run.configuration.processes.len(), 8);
    assert_eq!(lines(&run).last(), Some(&[13, 0, 10, 20, U, U]));
}

#[test]
fn fault_21_channel_beyond_16() {
    let code = [(NEWC, 1), (DROP, 0), (JUMP, 0)];
    assert_eq!(fault_of(&[], &code, &[]), (48, 21));
    let run = run_all(&[main_method(&[], &code)], &[0; 60], &[]);
    assert_eq!(lines(&run)[15], [45, 0, 2, 15, U, U]);
    assert_eq!(run.configuration.channels, 16);
}

#[test]
fn fault_22_qubit_beyond_32() {
    let code = [(NEWQ, 0), (DROP, 0), (JUMP, 0)];
    assert_eq!(fault_of(&[], &code, &[]), (96, 22));
}

#[test]
fn fault_23_process_beyond_8() {
    let code = [(NEWQ, 0), (FORK, 1), (JUMP, 0)];
    let methods = [main_method(&[], &code), method(VOID, &[QBIT], &[], &[(RET, 0)])];
    // Children that have finished count too.
    let mut schedule = [0, 0, 0].repeat(8);
    schedule.splice(2..2, [1]);
    let run = run_all(&methods, &schedule, &[]);
    assert_eq!(run.configuration.processes.len(), 8);
    let written = lines(&run);
    // Three entries a child, and entry 2 was child 1's: child 7 is made at
    // 20, and the next FORK at 23 is one too many.
    assert!(written.contains(&[20, 0, 5, 7, 1, 1]));
    assert_eq!(written.last(), Some(&[23, 0, 10, 23, U, U]));
    // The argument of the FORK that failed stays pending.
    assert_eq!(run.configuration.processes[0].frames[0].pending, [Value::Qubit(7)]);
}

#[test]
fn fault_24_no_outcome_left() {
    let code = [(NEWQ, 0), (MEAS, 0), (DROP, 0), (JUMP, 0)];
    assert_eq!(fault_of(&[], &code, &[]), (1, 24));
    assert_eq!(fault_of(&[], &code, &[0]), (5, 24));
    let run = run_all(&[main_method(&[], &code)], &[0; 9], &[1, 0]);
    assert_eq!(lines(&run)[1], [1, 0, 4, 0, 1, U]);
    assert_eq!(lines(&run)[3], [5, 0, 4, 1, 0, U]);
    assert_eq!(run.outcomes, 2);
}

#[test]
fn fault_25_frame_beyond_8() {
    let methods = [
        main_method(&[], &[(INT, 1), (CALL, 1), (RET, 0)]),
        method(VOID, &[INT_TYPE], &[], &[(GET, 0), (CALL, 1), (RET, 0)]),
    ];
    let run = run_all(&methods, &[0; 40], &[]);
    // The calls at entries 1, 3, ... 13 make frames 2 to 8.
    assert_eq!(lines(&run), [[15, 0, 10, 25, U, U]]);
    let frames = &run.configuration.processes[0].frames;
    assert_eq!(frames.len(), 8);
    assert_eq!((frames[7].place, frames[6].place, frames[0].place), (4, 5, 2));
    assert_eq!(frames[7].pending, [Value::Int(1)]);
}

#[test]
fn fault_26_int_out_of_range() {
    // Doubling -1: after 31 doublings -2147483648 stands, one more is 26.
    let mut code = vec![(INT, 65_535), (PUT, 0)];
    code.extend([(GET, 0), (ADD, 0), (PUT, 0)].repeat(32));
    code.extend([(DROP, 0), (RET, 0)]);
    assert_eq!(fault_of(&[INT_TYPE], &code, &[]), (2 + 31 * 3 + 1, 26));
    // -2147483648 - 1, and 0 - -2147483648.
    let mut lowest = vec![(INT, 65_535), (PUT, 0)];
    lowest.extend([(GET, 0), (ADD, 0), (PUT, 0)].repeat(31));
    let mut below = lowest.clone();
    below.extend([(INT, 1), (SUB, 0), (DROP, 0), (RET, 0)]);
    assert_eq!(fault_of(&[INT_TYPE], &below, &[]), (96, 26));
    let mut negated = lowest;
    negated.extend([(DROP, 0), (INT, 0), (GET, 0), (SUB, 0), (DROP, 0), (RET, 0)]);
    assert_eq!(fault_of(&[INT_TYPE], &negated, &[]), (98, 26));
}

#[test]
fn fault_27_two_qubit_gate_on_one_qubit() {
    for gate in [6, 7, 8] {
        let code = [(NEWQ, 0), (PUT, 0), (GET, 0), (GATE, gate), (RET, 0)];
        assert_eq!(fault_of(&[QBIT], &code, &[]), (3, 27));
    }
}

#[test]
fn a_stopped_process_is_idle_and_keeps_all() {
    let methods = [
        main_method(&[], &[(FORK, 1), (RET, 0)]),
        method(VOID, &[], &[QBIT], &[(NEWQ, 0), (MEAS, 0), (DROP, 0), (RET, 0)]),
    ];
    let program = program(&methods);
    let mut machine = Machine::new(&program, &[], AMPLE);
    let did = drive(&mut machine, &[0, 1, 1]);
    assert_eq!(did[2], EntryResult::Stopped(Fault::Outcomes));
    let before = machine.config.clone();
    assert_eq!(drive(&mut machine, &[1, 1]), [EntryResult::Idle, EntryResult::Idle]);
    assert_eq!(machine.config, before);
    assert_eq!(machine.config.processes[1].frames[0].pending, [Value::Qubit(0)]);
    assert_eq!(machine.entries, 5);
}
