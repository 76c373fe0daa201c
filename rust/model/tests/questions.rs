//! Every refusal number, each at several places.

mod common;

use common::*;
use data::program::{op::*, table, Method};
use data::WORK_WORDS;
use model::check::check;
use model::table::{instruction_place, pair_place, row_place};

const RETURN: &[(u16, u16)] = &[(RET, 0)];

/// Three methods of lengths 1, 3 and 2: offsets 0, 1 and 4, in all 6.
fn three_methods() -> Vec<Method> {
    vec![
        main_method(&[], RETURN),
        method(INT_TYPE, &[INT_TYPE], &[QBIT], &[(GET, 0), (PUT, 0), (RET, 0)]),
        method(VOID, &[], &[], &[(BOOL, 1), (JFALSE, 0)]),
    ]
}

/// The same with a last method that closes: it passes.
fn good() -> Vec<u16> {
    let mut methods = three_methods();
    methods[2].code = vec![(CLEAR, 3), (JUMP, 0)];
    methods[2].slots = vec![0, 0, 0, END_QBIT];
    table(&methods)
}

/// The good table with one word set.
fn with(place: usize, word: u16) -> Vec<u16> {
    let mut words = good();
    words[place] = word;
    words
}

#[test]
fn the_good_table_passes() {
    assert_eq!(good().len(), 2 + 60 + 12);
    assert_eq!(refusal(&good()), (0, 0));
}

#[test]
fn question_1_sizes_and_length() {
    assert_eq!(refusal(&[]), (1, 0));
    assert_eq!(refusal(&[1]), (1, 0));
    assert_eq!(refusal(&[1, 1]), (1, 0));
    assert_eq!(refusal(&[0, 0]), (1, 0));
    for methods in [0, 2, 4, 33, 65_535] {
        assert_eq!(refusal(&with(0, methods)), (1, 0));
    }
    for instructions in [0, 5, 7, 4097, 65_535] {
        assert_eq!(refusal(&with(1, instructions)), (1, 0));
    }
    let mut long = good();
    long.push(0);
    assert_eq!(refusal(&long), (1, 0));
}

#[test]
fn question_1_lets_the_limits_pass() {
    let methods = vec![main_method(&[], RETURN); 32];
    assert_eq!(refusal_of(&methods), (0, 0));
    let methods = vec![main_method(&[], RETURN); 33];
    assert_eq!(refusal_of(&methods), (1, 0));
    let longest = vec![(RET, 0); 4096];
    assert_eq!(refusal_of(&[main_method(&[], &longest)]), (0, 0));
    let longer = vec![(RET, 0); 4097];
    assert_eq!(refusal_of(&[main_method(&[], &longer)]), (1, 0));
}

/// The good table with all pairs set.
fn with_pairs(pairs: [(u16, u16); 3]) -> Vec<u16> {
    let mut words = good();
    for (method, (offset, length)) in pairs.into_iter().enumerate() {
        words[pair_place(method)] = offset;
        words[pair_place(method) + 1] = length;
    }
    words
}

#[test]
fn question_2_first_pair_at_fault() {
    assert_eq!(refusal(&with_pairs([(1, 1), (1, 3), (4, 2)])), (2, 0));
    assert_eq!(refusal(&with_pairs([(0, 0), (0, 4), (4, 2)])), (2, 0));
    // A gap and an overlap count against the method that starts wrongly.
    assert_eq!(refusal(&with_pairs([(0, 1), (2, 2), (4, 2)])), (2, 1));
    assert_eq!(refusal(&with_pairs([(0, 2), (1, 3), (4, 2)])), (2, 1));
    assert_eq!(refusal(&with_pairs([(0, 1), (1, 0), (1, 5)])), (2, 1));
    assert_eq!(refusal(&with_pairs([(0, 1), (1, 3), (3, 2)])), (2, 2));
    // Not sorted by offset.
    assert_eq!(refusal(&with_pairs([(0, 1), (4, 2), (1, 3)])), (2, 1));
}

#[test]
fn question_2_wrong_sum_alone_counts_against_the_last() {
    assert_eq!(refusal(&with_pairs([(0, 1), (1, 3), (4, 1)])), (2, 2));
    assert_eq!(refusal(&with_pairs([(0, 1), (1, 3), (4, 3)])), (2, 2));
    assert_eq!(refusal(&with_pairs([(0, 1), (1, 3), (4, 65_535)])), (2, 2));
    // The sum is wrong here too, but the pair at fault comes first.
    assert_eq!(refusal(&with_pairs([(0, 1), (2, 3), (5, 2)])), (2, 1));
}

#[test]
fn question_2_sums_do_not_wrap() {
    // 65535 + 1 would wrap to 0, and 65530 + 12 to 6.
    assert_eq!(refusal(&with_pairs([(0, 65_535), (65_535, 1), (0, 6)])), (2, 2));
    let pairs = [(0, 65_529), (65_529, 1), (65_530, 12)];
    assert_eq!(refusal(&with_pairs(pairs)), (2, 2));
}

#[test]
fn question_3_types_of_a_row() {
    for wrong in [4, 15, 16, 20, 31, 32, 36, 47, 48, 51, 65_535] {
        assert_eq!(refusal(&with(row_place(3, 2), wrong)), (3, 2));
        assert_eq!(refusal(&with(row_place(3, 1) + 2, wrong)), (3, 1));
        assert_eq!(refusal(&with(row_place(3, 0) + 17, wrong)), (3, 0));
    }
}

#[test]
fn question_3_listed_types_pass() {
    for listed in [0, 1, 2, 3, 17, 18, 19, 33, 34, 35] {
        assert_eq!(refusal(&with(row_place(3, 1) + 17, listed)), (0, 0));
        // Nothing is wrong with main's unused slots either.
        assert_eq!(refusal(&with(row_place(3, 0) + 2, listed)), (0, 0));
    }
}

#[test]
fn question_3_parameters() {
    for count in [9, 16, 17, 65_535] {
        assert_eq!(refusal(&with(row_place(3, 2) + 1, count)), (3, 2));
    }
    // Slot 2 of method 1 is unused, so it cannot be its third parameter.
    assert_eq!(refusal(&with(row_place(3, 1) + 1, 2)), (0, 0));
    assert_eq!(refusal(&with(row_place(3, 1) + 1, 3)), (3, 1));
    let eight = method(VOID, &[INT_TYPE; 8], &[], RETURN);
    assert_eq!(refusal_of(&[main_method(&[], RETURN), eight]), (0, 0));
    let nine = method(VOID, &[INT_TYPE; 9], &[], RETURN);
    assert_eq!(refusal_of(&[main_method(&[], RETURN), nine]), (3, 1));
}

#[test]
fn question_3_main() {
    let with_parameter = method(VOID, &[INT_TYPE], &[], RETURN);
    assert_eq!(refusal_of(&[with_parameter]), (3, 0));
    let returning = method(INT_TYPE, &[], &[], &[(INT, 1), (RET, 0)]);
    let beside_main = [main_method(&[], RETURN), returning.clone()];
    assert_eq!(refusal_of(&beside_main), (0, 0));
    assert_eq!(refusal_of(&[returning]), (3, 0));
}

/// Two methods; the instruction is the third of the second, 4 in the table.
fn with_instruction(op: u16, argument: u16) -> (u16, usize) {
    let code = [(CLEAR, 1), (CLEAR, 1), (op, argument), (RET, 0)];
    let mut slots = [0; 16];
    slots[1] = INT_TYPE;
    slots[15] = QBIT;
    let methods = [main_method(&[], &[(JUMP, 1), (RET, 0)]), method(VOID, &[], &slots, &code)];
    refusal_of(&methods)
}

#[test]
fn question_4_unlisted_ops() {
    for op in [0, 24, 25, 255, 256, 65_535] {
        assert_eq!(with_instruction(op, 0), (4, 4));
    }
}

#[test]
fn question_4_plain_ops_take_only_0() {
    for op in [DROP, NEWQ, MEAS, RET, SEND, RECV, ADD, SUB, EQ, LESS, NOT] {
        assert_eq!(with_instruction(op, 1), (4, 4));
        assert_eq!(with_instruction(op, 65_535), (4, 4));
        assert_ne!(with_instruction(op, 0).0, 4);
    }
}

#[test]
fn question_4_argument_ranges() {
    let passing = [
        (INT, 65_535),
        (INT, 32_768),
        (BOOL, 0),
        (BOOL, 1),
        (NEWC, 1),
        (NEWC, 3),
        (END, 0),
        (END, 1),
        (GATE, 1),
        (GATE, 8),
        (CALL, 1),
        (FORK, 0),
    ];
    for (op, argument) in passing {
        assert_ne!(with_instruction(op, argument).0, 4, "{op} {argument}");
    }
    let failing =
        [(BOOL, 2), (NEWC, 0), (NEWC, 4), (END, 2), (GATE, 0), (GATE, 9), (CALL, 2), (FORK, 2), (FORK, 65_535)];
    for (op, argument) in failing {
        assert_eq!(with_instruction(op, argument), (4, 4), "{op} {argument}");
    }
}

#[test]
fn question_4_slots() {
    for op in [GET, PUT, CLEAR] {
        for unused in [0, 2, 14, 16, 17, 65_535] {
            assert_eq!(with_instruction(op, unused), (4, 4));
        }
        assert_ne!(with_instruction(op, 1).0, 4);
        assert_ne!(with_instruction(op, 15).0, 4);
    }
}

#[test]
fn question_4_targets_stay_inside() {
    for target in [4, 5, 65_535] {
        assert_eq!(with_instruction(JUMP, target), (4, 4));
        assert_eq!(with_instruction(JFALSE, target), (4, 4));
    }
    assert_eq!(with_instruction(JUMP, 3), (0, 0));
    assert_eq!(with_instruction(JUMP, 0), (0, 0));
}

#[test]
fn question_4_first_instruction_at_fault() {
    let mut words = good();
    words[instruction_place(3, 5)] = 0;
    assert_eq!(refusal(&words), (4, 5));
    words[instruction_place(3, 2)] = 99;
    assert_eq!(refusal(&words), (4, 2));
    words[instruction_place(3, 0) + 1] = 1;
    assert_eq!(refusal(&words), (4, 0));
}

/// Refusal of a method 1 of this code, after a main of one instruction;
/// slots 0 to 8 have the nine types that a slot can have.
fn typed(return_type: u16, code: &[(u16, u16)]) -> (u16, usize) {
    let slots = [1, 2, 3, 17, 18, 19, 33, 34, 35];
    let methods = [
        main_method(&[], RETURN),
        method(return_type, &[], &slots, code),
        method(QBIT, &[INT_TYPE, QBIT], &[], &[(GET, 1), (RET, 0)]),
        method(VOID, &[BOOL_TYPE], &[], RETURN),
    ];
    refusal_of(&methods)
}

/// The same with RET after the code.
fn typed_void(code: &[(u16, u16)]) -> (u16, usize) {
    let code = [code, RETURN].concat();
    typed(VOID, &code)
}

#[test]
fn question_5_operand_missing() {
    let takers = [
        (PUT, 0),
        (DROP, 0),
        (END, 0),
        (GATE, 1),
        (GATE, 6),
        (MEAS, 0),
        (CALL, 2),
        (FORK, 2),
        (SEND, 0),
        (RECV, 0),
        (JFALSE, 0),
        (ADD, 0),
        (SUB, 0),
        (EQ, 0),
        (LESS, 0),
        (NOT, 0),
    ];
    for taker in takers {
        assert_eq!(typed_void(&[taker]), (5, 1), "{taker:?}");
        assert_eq!(typed_void(&[(CLEAR, 0), taker]), (5, 2), "{taker:?}");
    }
    assert_eq!(typed_void(&[(INT, 1), (ADD, 0)]), (5, 2));
    assert_eq!(typed_void(&[(NEWQ, 0), (GATE, 7)]), (5, 2));
    assert_eq!(typed_void(&[(NEWQ, 0), (CALL, 2)]), (5, 2));
    assert_eq!(typed(INT_TYPE, RETURN), (5, 1));
}

#[test]
fn question_5_operand_of_another_type() {
    assert_eq!(typed_void(&[(BOOL, 1), (PUT, 0)]), (5, 2));
    assert_eq!(typed_void(&[(INT, 1), (GATE, 1)]), (5, 2));
    assert_eq!(typed_void(&[(INT, 1), (NEWQ, 0), (GATE, 6)]), (5, 3));
    assert_eq!(typed_void(&[(GET, 6), (END, 0)]), (5, 2));
    assert_eq!(typed_void(&[(BOOL, 1), (MEAS, 0)]), (5, 2));
    assert_eq!(typed_void(&[(NEWQ, 0), (INT, 1), (CALL, 2)]), (5, 3));
    assert_eq!(typed_void(&[(INT, 1), (FORK, 3)]), (5, 2));
    assert_eq!(typed_void(&[(GET, 3), (RECV, 0)]), (5, 2));
    assert_eq!(typed_void(&[(INT, 1), (JFALSE, 0)]), (5, 2));
    assert_eq!(typed_void(&[(INT, 1), (BOOL, 1), (ADD, 0)]), (5, 3));
    assert_eq!(typed_void(&[(BOOL, 1), (INT, 1), (EQ, 0)]), (5, 3));
    assert_eq!(typed_void(&[(INT, 1), (NOT, 0)]), (5, 2));
    assert_eq!(typed(INT_TYPE, &[(BOOL, 0), (RET, 0)]), (5, 2));
}

#[test]
fn question_5_send_wants_what_the_end_carries() {
    assert_eq!(typed_void(&[(GET, 6), (INT, 1), (SEND, 0)]), (0, 0));
    assert_eq!(typed_void(&[(GET, 7), (BOOL, 1), (SEND, 0)]), (0, 0));
    assert_eq!(typed_void(&[(GET, 8), (NEWQ, 0), (SEND, 0)]), (0, 0));
    assert_eq!(typed_void(&[(GET, 6), (BOOL, 1), (SEND, 0)]), (5, 3));
    assert_eq!(typed_void(&[(GET, 8), (INT, 1), (SEND, 0)]), (5, 3));
    assert_eq!(typed_void(&[(GET, 3), (INT, 1), (SEND, 0)]), (5, 3));
    assert_eq!(typed_void(&[(INT, 1), (GET, 6), (SEND, 0)]), (5, 3));
    assert_eq!(typed_void(&[(INT, 1), (SEND, 0)]), (5, 2));
}

#[test]
fn question_5_results_have_their_types() {
    assert_eq!(typed_void(&[(NEWQ, 0), (MEAS, 0), (PUT, 0), (DROP, 0)]), (0, 0));
    assert_eq!(typed_void(&[(NEWC, 2), (PUT, 4), (END, 1), (PUT, 7), (DROP, 0)]), (0, 0));
    assert_eq!(typed_void(&[(NEWC, 2), (PUT, 5)]), (5, 2));
    assert_eq!(typed_void(&[(GET, 8), (RECV, 0), (PUT, 2), (DROP, 0)]), (0, 0));
    assert_eq!(typed_void(&[(GET, 8), (RECV, 0), (PUT, 0)]), (5, 3));
    assert_eq!(typed_void(&[(INT, 1), (INT, 2), (LESS, 0), (PUT, 1), (DROP, 0)]), (0, 0));
    assert_eq!(typed_void(&[(INT, 1), (INT, 2), (SUB, 0), (PUT, 1)]), (5, 4));
    let call = [(INT, 1), (NEWQ, 0), (CALL, 2), (PUT, 2), (DROP, 0)];
    assert_eq!(typed_void(&call), (0, 0));
    assert_eq!(typed_void(&[(BOOL, 1), (CALL, 3)]), (0, 0));
}

#[test]
fn question_5_at_most_8_pending() {
    let mut code = vec![(INT, 1); 8];
    code.extend(vec![(ADD, 0); 7]);
    code.push((DROP, 0));
    assert_eq!(typed_void(&code), (0, 0));
    let nine = vec![(INT, 1); 9];
    assert_eq!(typed_void(&nine), (5, 9));
    // Counted after the operands are off: a full eight may go through CALL.
    let mut code = vec![(INT, 1); 7];
    code.extend([(NEWQ, 0), (CALL, 2), (MEAS, 0)]);
    code.extend(vec![(ADD, 0); 6]);
    code.push((DROP, 0));
    assert_eq!(typed_void(&code), (0, 0));
}

#[test]
fn question_5_nothing_pending_after() {
    assert_eq!(typed_void(&[(INT, 1), (INT, 1), (DROP, 0)]), (5, 3));
    assert_eq!(typed_void(&[(INT, 1), (CLEAR, 0)]), (5, 2));
    assert_eq!(typed_void(&[(INT, 1)]), (5, 2));
    assert_eq!(typed_void(&[(INT, 1), (BOOL, 1), (FORK, 3)]), (5, 3));
    assert_eq!(typed_void(&[(INT, 1), (GET, 6), (INT, 1), (SEND, 0)]), (5, 4));
    assert_eq!(typed_void(&[(INT, 1), (JUMP, 0)]), (5, 2));
    assert_eq!(typed_void(&[(INT, 1), (BOOL, 1), (JFALSE, 0)]), (5, 3));
}

#[test]
fn question_5_pending_across_the_other_ops() {
    let code = [
        (INT, 1),
        (BOOL, 1),
        (CALL, 3),
        (NEWQ, 0),
        (PUT, 2),
        (GATE, 4),
        (GET, 2),
        (MEAS, 0),
        (ADD, 0),
        (GET, 6),
        (RECV, 0),
        (LESS, 0),
        (NOT, 0),
        (DROP, 0),
    ];
    assert_eq!(typed_void(&code), (0, 0));
}

#[test]
fn question_5_nothing_pending_before_a_target() {
    // The jump stands after its target, and before it; both are looked for.
    let back = [(INT, 1), (PUT, 0), (DROP, 0), (JUMP, 1)];
    assert_eq!(typed(VOID, &back), (5, 2));
    let ahead = [(JUMP, 3), (INT, 1), (PUT, 0), (DROP, 0), (RET, 0)];
    assert_eq!(typed(VOID, &ahead), (5, 4));
    // A jump that no run reaches counts too.
    let unreached = [(INT, 1), (DROP, 0), (RET, 0), (JUMP, 1)];
    assert_eq!(typed(VOID, &unreached), (5, 2));
    let conditional = [(BOOL, 1), (JFALSE, 3), (INT, 1), (DROP, 0), (RET, 0)];
    assert_eq!(typed(VOID, &conditional), (5, 4));
    let clean = [(BOOL, 1), (JFALSE, 0), (JUMP, 2)];
    assert_eq!(typed(VOID, &clean), (0, 0));
    // The target that meets pending values stands before the wrong op.
    let both = [(INT, 1), (INT, 1), (DROP, 0), (JUMP, 1)];
    assert_eq!(typed(VOID, &both), (5, 2));
}

#[test]
fn question_5_methods_close() {
    assert_eq!(typed(VOID, &[(CLEAR, 0)]), (5, 1));
    assert_eq!(typed(VOID, &[(RET, 0), (CLEAR, 0), (CLEAR, 1)]), (5, 3));
    assert_eq!(typed(VOID, &[(BOOL, 1), (JFALSE, 0)]), (5, 2));
    assert_eq!(typed(VOID, &[(CLEAR, 0), (JUMP, 0)]), (0, 0));
    assert_eq!(typed(VOID, &[(INT, 1), (DROP, 0)]), (5, 2));
}

#[test]
fn question_5_unreachable_code_is_read() {
    assert_eq!(typed(VOID, &[(RET, 0), (INT, 1), (RET, 0)]), (5, 3));
    assert_eq!(typed(VOID, &[(RET, 0), (NOT, 0), (RET, 0)]), (5, 2));
    assert_eq!(typed(VOID, &[(JUMP, 2), (ADD, 0), (RET, 0)]), (5, 2));
}

#[test]
fn question_5_first_over_the_table() {
    let bad = method(VOID, &[], &[], &[(INT, 1), (RET, 0)]);
    let good = main_method(&[], RETURN);
    assert_eq!(refusal_of(&[bad.clone(), good.clone(), bad.clone()]), (5, 1));
    assert_eq!(refusal_of(&[good.clone(), good, bad]), (5, 3));
}

/// Number and place for the inputs beside the table.
fn inputs(schedule: &[u8], outcomes: &[u8], work_len: usize) -> (u16, usize) {
    match check(&good(), schedule, outcomes, work_len) {
        Ok(_) => (0, 0),
        Err(refusal) => (refusal.number(), refusal.place),
    }
}

#[test]
fn question_6_outcomes() {
    assert_eq!(inputs(&[], &[0, 1, 1, 0], WORK_WORDS), (0, 0));
    // Paper 3: no click.
    assert_eq!(inputs(&[], &[2, 0, 2], WORK_WORDS), (0, 0));
    assert_eq!(inputs(&[], &[3], WORK_WORDS), (6, 0));
    assert_eq!(inputs(&[], &[0, 2, 255, 3], WORK_WORDS), (6, 2));
    let mut many = vec![1; 70_000];
    many[69_999] = 3;
    assert_eq!(inputs(&[], &many, WORK_WORDS), (6, 69_999));
}

#[test]
fn question_7_schedule() {
    assert_eq!(inputs(&vec![9; 65_535], &[], WORK_WORDS), (0, 0));
    assert_eq!(inputs(&vec![0; 65_536], &[], WORK_WORDS), (7, 0));
    assert_eq!(inputs(&vec![0; 70_000], &[], WORK_WORDS), (7, 0));
}

#[test]
fn question_8_work_store() {
    assert_eq!(inputs(&[], &[], 0), (8, 0));
    // Paper 7: 8,192 words were enough before it.
    assert_eq!(inputs(&[], &[], 8_192), (8, 0));
    assert_eq!(inputs(&[], &[], 8_255), (8, 0));
    assert_eq!(inputs(&[], &[], 8_256), (0, 0));
    assert_eq!(inputs(&[], &[], usize::MAX), (0, 0));
}

#[test]
fn the_first_no_decides() {
    let long = vec![0; 65_536];
    assert_eq!(inputs(&long, &[0, 3], 0), (6, 1));
    assert_eq!(inputs(&long, &[0], 0), (7, 0));
    let mut words = good();
    let number = |words: &[u16]| check(words, &long, &[3], 0).unwrap_err().number();
    words[instruction_place(3, 3)] = CLEAR;
    words[instruction_place(3, 3) + 1] = 0;
    assert_eq!(number(&words), 5);
    words[instruction_place(3, 5)] = 0;
    assert_eq!(number(&words), 4);
    words[row_place(3, 2)] = 4;
    assert_eq!(number(&words), 3);
    words[pair_place(2)] = 3;
    assert_eq!(number(&words), 2);
    words.push(0);
    assert_eq!(number(&words), 1);
}
