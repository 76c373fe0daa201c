//! The run that 01 gives whole, and its cases P1 to P12.

mod common;

use common::*;
use data::program::{op::*, table, Method};
use data::{file::file, Fault, Question, Refusal, State, Value, WORK_WORDS};
use model::check;
use model::machine::run;
use model::print::print;

/// "A run given whole", its words typed from 01.
fn worked_methods() -> Vec<Method> {
    vec![
        main_method(
            &[3, 19, 35],
            &[
                (7, 0),
                (4, 0),
                (5, 0),
                (8, 3),
                (4, 1),
                (9, 0),
                (4, 2),
                (5, 0),
                (3, 1),
                (9, 1),
                (14, 1),
                (3, 2),
                (3, 0),
                (15, 0),
                (3, 0),
                (11, 0),
                (5, 0),
                (13, 0),
            ],
        ),
        method(0, &[35], &[], &[(3, 0), (16, 0), (10, 4), (13, 0)]),
    ]
}

const WORKED_SCHEDULE: [u8; 18] = [0, 0, 0, 0, 0, 0, 0, 0, 0, 0, 0, 1, 0, 0, 0, 1, 1, 0];

const WORKED_TEXT: &str = "\
0 0 1 0 - -
3 0 2 0 - -
10 0 5 1 1 1
10 0 6 1 6 0
14 0 7 1 0 0
14 0 6 1 3 0
15 1 3 4 0 -
16 1 9 - - -
17 0 10 20 - -
end 1 18 9 0
";

#[test]
fn table_of_the_worked_run() {
    let words = table(&worked_methods());
    assert_eq!(words.len(), 2 + 20 * 2 + 2 * 22);
    assert_eq!(words[..6], [2, 22, 0, 18, 18, 4]);
    assert_eq!(words[6..11], [0, 0, 3, 19, 35]);
    assert_eq!(words[24..28], [0, 1, 35, 0]);
    assert_eq!(words[42..46], [7, 0, 4, 0]);
    assert_eq!(words[78..], [3, 0, 16, 0, 10, 4, 13, 0]);
}

#[test]
fn p1_empty_schedule() {
    let run = run_all(&worked_methods(), &[], &[]);
    assert_eq!(answer(&run), (0, 0, 0, 0));
    assert_eq!(run.configuration.processes.len(), 1);
    assert_eq!(run.configuration.processes[0].frames[0].place, 0);
}

#[test]
fn p2_no_trace_lines() {
    let program = program(&worked_methods());
    for trace_words in [0, 1, 5] {
        let run = run(&program, &[0], &[], trace_words);
        assert_eq!(answer(&run), (3, 0, 0, 0));
        assert_eq!(run.configuration, model::state::start(&program));
    }
}

#[test]
fn p3_worked_run_as_lines() {
    let run = run_all(&worked_methods(), &WORKED_SCHEDULE, &[]);
    assert_eq!(answer(&run), (1, 18, 9, 0));
    let expected = [
        [0, 0, 1, 0, U, U],
        [3, 0, 2, 0, U, U],
        [10, 0, 5, 1, 1, 1],
        [10, 0, 6, 1, 6, 0],
        [14, 0, 7, 1, 0, 0],
        [14, 0, 6, 1, 3, 0],
        [15, 1, 3, 4, 0, U],
        [16, 1, 9, U, U, U],
        [17, 0, 10, 20, U, U],
    ];
    assert_eq!(lines(&run), expected);
    assert_eq!(run.trace_words(), expected.concat());
}

#[test]
fn p3_worked_run_printed() {
    let words = table(&worked_methods());
    assert_eq!(print(&file(&words, &WORKED_SCHEDULE, &[])), WORKED_TEXT);
}

#[test]
fn p3_worked_run_final_configuration() {
    let run = run_all(&worked_methods(), &WORKED_SCHEDULE, &[]);
    let [main, child] = &run.configuration.processes[..] else {
        panic!("two processes were made");
    };
    assert_eq!(main.state, State::Stopped(Fault::Empty));
    assert_eq!(main.frames.len(), 1);
    // Stopped at the GET of the qubit that was sent away.
    assert_eq!(main.frames[0].place, 14);
    assert_eq!(main.frames[0].pending, []);
    assert_eq!(main.frames[0].slots[0], Value::Empty);
    assert_eq!(main.frames[0].slots[1], Value::Empty);
    let side = data::Side::Zero;
    assert_eq!(main.frames[0].slots[2], Value::End(0, side));
    assert_eq!(child.state, State::Finished);
    assert!(child.frames.is_empty());
    assert_eq!((run.configuration.qubits, run.configuration.channels), (1, 1));
}

#[test]
fn p4_one_word_short() {
    let mut words = table(&worked_methods());
    words.pop();
    assert_eq!(refusal(&words), (1, 0));
}

/// Main that makes and drops so many qubits.
fn qubit_maker(count: usize) -> Vec<Method> {
    let mut code = [(NEWQ, 0), (DROP, 0)].repeat(count);
    code.push((RET, 0));
    vec![main_method(&[], &code)]
}

#[test]
fn p5_thirty_second_qubit_is_made() {
    let run = run_all(&qubit_maker(33), &[0; 63], &[]);
    assert_eq!(answer(&run), (0, 63, 32, 0));
    assert_eq!(lines(&run)[31], [62, 0, 1, 31, U, U]);
}

#[test]
fn p6_thirty_third_qubit_is_22() {
    let run = run_all(&qubit_maker(33), &[0; 70], &[]);
    assert_eq!(answer(&run), (1, 65, 33, 0));
    assert_eq!(lines(&run)[32], [64, 0, 10, 22, U, U]);
    assert_eq!(run.configuration.qubits, 32);
}

/// Main with 2147483647 pending after 96 entries, and then plus `added`.
fn largest_plus(added: u16) -> Vec<Method> {
    let mut code = vec![(INT, 1), (PUT, 0)];
    // 30 doublings: 1073741824.
    code.extend([(GET, 0), (ADD, 0), (PUT, 0)].repeat(30));
    code.extend([(INT, 1), (SUB, 0), (GET, 0), (ADD, 0)]);
    code.extend([(INT, added), (ADD, 0), (PUT, 1), (DROP, 0), (RET, 0)]);
    vec![main_method(&[INT_TYPE, INT_TYPE], &code)]
}

#[test]
fn p7_largest_int_plus_0_is_made() {
    let run = run_all(&largest_plus(0), &[0; 99], &[]);
    assert_eq!(answer(&run), (0, 99, 0, 0));
    let frame = &run.configuration.processes[0].frames[0];
    assert_eq!(frame.slots[0], Value::Int(1_073_741_824));
    assert_eq!(frame.slots[1], Value::Int(2_147_483_647));
    assert_eq!(frame.pending, [Value::Int(2_147_483_647)]);
}

#[test]
fn p8_largest_int_plus_1_is_26() {
    let run = run_all(&largest_plus(1), &[0; 99], &[]);
    assert_eq!(answer(&run), (1, 98, 1, 0));
    assert_eq!(lines(&run), [[97, 0, 10, 26, U, U]]);
    let frame = &run.configuration.processes[0].frames[0];
    // Both operands are as they were before the entry.
    assert_eq!(frame.pending, [Value::Int(2_147_483_647), Value::Int(1)]);
    assert_eq!(frame.place, 97);
}

#[test]
fn p9_cx_on_one_qubit_is_27() {
    let code = [(NEWQ, 0), (PUT, 0), (GET, 0), (GATE, 6), (RET, 0)];
    let run = run_all(&[main_method(&[QBIT], &code)], &[0; 9], &[]);
    assert_eq!(answer(&run), (1, 4, 2, 0));
    assert_eq!(lines(&run)[1], [3, 0, 10, 27, U, U]);
    let frame = &run.configuration.processes[0].frames[0];
    assert_eq!(frame.pending, [Value::Qubit(0), Value::Qubit(0)]);
}

#[test]
fn p10_value_already_evaluated_is_emptied() {
    let main = [(NEWQ, 0), (PUT, 0), (DROP, 0), (GET, 0), (GET, 0), (CALL, 1), (GATE, 6), (RET, 0)];
    let forks = [(GET, 0), (FORK, 2), (NEWQ, 0), (RET, 0)];
    let methods =
        [main_method(&[QBIT], &main), method(QBIT, &[QBIT], &[], &forks), method(VOID, &[QBIT], &[], &[(RET, 0)])];
    let run = run_all(&methods, &[0; 11], &[]);
    let expected =
        [[0, 0, 1, 0, U, U], [7, 0, 5, 1, 2, 1], [7, 0, 6, 1, 3, 0], [8, 0, 1, 1, U, U], [10, 0, 10, 20, U, U]];
    assert_eq!(lines(&run), expected);
    // The child has not run yet, so the schedule's end decides.
    assert_eq!(answer(&run), (0, 11, 5, 0));
    let frame = &run.configuration.processes[0].frames[0];
    assert_eq!(frame.pending, [Value::Empty, Value::Qubit(1)]);
    assert_eq!(frame.slots[0], Value::Empty);
}

/// "P11 main forks a child with end 1, the child returns, main stands at SEND".
/// Paper 6: with one more entry of main it "now ends with main stopped and end
/// 1".
#[test]
fn p11_partner_gone_is_33() {
    let main = [
        (NEWC, 1),
        (PUT, 0),
        (END, 0),
        (PUT, 1),
        (DROP, 0),
        (GET, 0),
        (END, 1),
        (FORK, 1),
        (GET, 1),
        (INT, 5),
        (SEND, 0),
        (RET, 0),
    ];
    let methods = [main_method(&[CHANNEL_INT, END_INT], &main), method(VOID, &[END_INT], &[], &[(RET, 0)])];
    let schedule = [0, 0, 0, 0, 0, 0, 0, 0, 0, 0, 1, 0, 0];
    let expected =
        [[0, 0, 2, 0, U, U], [7, 0, 5, 1, 1, 1], [7, 0, 6, 1, 6, 0], [10, 1, 9, U, U, U], [11, 0, 10, 33, U, U]];
    assert_eq!(answer(&run_all(&methods, &schedule[..10], &[])), (0, 10, 3, 0));
    // As it stood: main was not named at SEND, and is able to move.
    let run = run_all(&methods, &schedule[..11], &[]);
    assert_eq!((answer(&run), lines(&run)), ((0, 11, 4, 0), expected[..4].to_vec()));
    for used in [12, 13] {
        let run = run_all(&methods, &schedule[..used], &[]);
        assert_eq!((answer(&run), lines(&run)), ((1, 12, 5, 0), expected.to_vec()));
        let main = &run.configuration.processes[0];
        assert_eq!((main.state, main.frames[0].place), (State::Stopped(Fault::Gone), 10));
        assert_eq!(main.frames[0].pending, [Value::End(0, data::Side::Zero), Value::Int(5)]);
    }
}

/// Paper 3: "Question 6 and case P12 move to byte 3."
#[test]
fn p12_outcome_byte_3_is_6() {
    let words = table(&worked_methods());
    let refused = check(&words, &[0], &[0, 1, 2, 3], WORK_WORDS);
    assert_eq!(refused, Err(Refusal::new(Question::Outcomes, 3)));
}
