//! The reason of a refusal has the number and place that the proved check
//! answers: for a table of every rule of every question, with its words, and
//! on the generated inputs.

use std::collections::BTreeSet;

use data::program::{op::*, table, Method};
use data::WORK_WORDS;
use generate::{case, Case, Random};
use lanq::{check_in, reason_in, Reason};

/// Asserts that reason and library agree, and gives the reason.
fn agreed(case: &Case) -> Option<Reason> {
    let Case { program, schedule, outcomes, work_len, .. } = case;
    let reason = reason_in(program, schedule, outcomes, *work_len);
    let library = check_in(program, schedule, outcomes, *work_len);
    assert_eq!(library.err(), reason.as_ref().map(|reason| reason.refusal), "{case:?}");
    reason
}

/// A case of a program alone.
fn of(program: Vec<u16>) -> Case {
    Case { program, schedule: vec![], outcomes: vec![], trace_len: 0, work_len: WORK_WORDS }
}

/// Main with an int, a boolean, a qbit, a channel and an end of qbits, an end
/// of ints, and an unused slot.
fn main_with(code: &[(u16, u16)]) -> Method {
    Method { return_type: 0, parameters: 0, slots: vec![1, 2, 3, 19, 35, 33, 0], code: code.to_vec() }
}

/// Main, and a method that takes an int and a qbit and returns a boolean.
fn both(code: &[(u16, u16)]) -> Case {
    let other = Method { return_type: 2, parameters: 2, slots: vec![1, 3], code: vec![(BOOL, 0), (RET, 0)] };
    of(table(&[main_with(code), other]))
}

/// The words of a right table of main and the other method, one of them changed.
fn changed(word: usize, value: u16) -> Case {
    let mut case = both(&[(RET, 0)]);
    case.program[word] = value;
    case
}

/// Where the rows of a table of two methods start.
const ROWS: usize = 2 + 2 * 2;

/// Every rule, with its number, place and words.
fn every_rule() -> Vec<(Case, &'static str)> {
    let schedule = Case { schedule: vec![0; 65_536], ..both(&[(RET, 0)]) };
    let work = Case { work_len: WORK_WORDS - 1, ..both(&[(RET, 0)]) };
    let outcomes = Case { outcomes: vec![0, 1, 9], ..both(&[(RET, 0)]) };
    let mut long = both(&[(RET, 0)]);
    long.program.push(0);
    vec![
        (of(vec![1]), "refused 1 0: the table has 1 word; M and N alone are 2"),
        (changed(0, 33), "refused 1 0: M, the number of methods, is 33, not 1 to 32"),
        (changed(1, 0), "refused 1 0: N, the number of instructions, is 0, not 1 to 4096"),
        (long, "refused 1 0: the table has 49 words, for its M and N it must have 48"),
        (changed(4, 2), "refused 2 1: the method is said to start at instruction 2, not 1, where the one before ends"),
        (changed(3, 0), "refused 2 0: the method has no instruction"),
        (changed(5, 1), "refused 2 1: the methods' lengths sum to 2, the table has N = 3 instructions"),
        (changed(ROWS + 18, 4), "refused 3 1: the return type is 4, which is no type"),
        (changed(ROWS + 19, 9), "refused 3 1: it has 9 parameters, not 0 to 8"),
        (changed(ROWS + 2 + 7, 16), "refused 3 0: the type of slot 7 is 16, which is no type"),
        (changed(ROWS + 19, 3), "refused 3 1: parameter 2 has type 0, that of an unused slot"),
        (changed(ROWS + 1, 1), "refused 3 0: main has 1 parameter, it must have none"),
        (changed(ROWS, 35), "refused 3 0: main returns end(qbit), it must be void"),
        (both(&[(INT, 0), (24, 2)]), "refused 4 1: 24 2: no op has this number"),
        (both(&[(0, 0)]), "refused 4 0: 0 0: no op has this number"),
        (both(&[(BOOL, 2)]), "refused 4 0: BOOL 2: the argument must be 0 or 1"),
        (both(&[(NEWC, 4)]), "refused 4 0: NEWC 4: the argument must be 1, 2 or 3, what it carries"),
        (both(&[(END, 2)]), "refused 4 0: END 2: the argument must be 0 or 1, the side"),
        (both(&[(GATE, 9)]), "refused 4 0: GATE 9: the argument must be a gate, 1 to 8"),
        (both(&[(RET, 1)]), "refused 4 0: RET 1: the argument must be 0"),
        (both(&[(GET, 16)]), "refused 4 0: GET 16: there is no slot 16, slots are 0 to 15"),
        (both(&[(CLEAR, 6)]), "refused 4 0: CLEAR 6: slot 6 is unused, it has type 0"),
        (both(&[(FORK, 2)]), "refused 4 0: FORK 2: there is no method 2, methods are 0 to 1"),
        (both(&[(JUMP, 2), (RET, 0)]), "refused 4 0: JUMP 2: instruction 2 is outside the method, which has 0 to 1"),
        (
            both(&[(INT, 7), (NEWQ, 0), (JUMP, 1)]),
            "refused 5 1: NEWQ 0 is a jump's target, where nothing may be pending: int is",
        ),
        (both(&[(DROP, 0)]), "refused 5 0: DROP 0 wants 1 value, 0 pending"),
        (both(&[(NEWQ, 0), (GATE, 6)]), "refused 5 1: GATE 6 wants 2 values, 1 pending"),
        (both(&[(INT, 1), (PUT, 2)]), "refused 5 1: PUT 2 wants qbit, the top is int"),
        (both(&[(INT, 1), (NEWQ, 0), (GATE, 6)]), "refused 5 2: GATE 6 wants qbit below the top, int is there"),
        (both(&[(BOOL, 1), (INT, 1), (ADD, 0)]), "refused 5 2: ADD 0 wants int below the top, bool is there"),
        (both(&[(INT, 1), (MEAS, 0)]), "refused 5 1: MEAS 0 wants qbit, the top is int"),
        (both(&[(INT, 1), (JFALSE, 0)]), "refused 5 1: JFALSE 0 wants bool, the top is int"),
        (both(&[(INT, 1), (NOT, 0)]), "refused 5 1: NOT 0 wants bool, the top is int"),
        (both(&[(GET, 4), (END, 0)]), "refused 5 1: END 0 wants a channel, the top is end(qbit)"),
        (both(&[(GET, 3), (RECV, 0)]), "refused 5 1: RECV 0 wants a channel end, the top is channel(qbit)"),
        (both(&[(INT, 1), (INT, 1), (SEND, 0)]), "refused 5 2: SEND 0 wants a channel end below the top, int is there"),
        (both(&[(GET, 4), (INT, 1), (SEND, 0)]), "refused 5 2: SEND 0 over end(qbit) wants qbit, the top is int"),
        (both(&[(INT, 1), (INT, 1), (CALL, 1)]), "refused 5 2: CALL 1 wants qbit as argument 2 of 2, int is there"),
        (both(&[(NEWQ, 0), (NEWQ, 0), (FORK, 1)]), "refused 5 2: FORK 1 wants int as argument 1 of 2, qbit is there"),
        (both(&[(INT, 1); 9]), "refused 5 8: INT 1 leaves 9 values pending, at most 8 may be"),
        (both(&[(INT, 1), (CLEAR, 0)]), "refused 5 1: nothing may be pending after CLEAR 0: int is"),
        (
            both(&[(INT, 1), (BOOL, 0), (NEWC, 1), (DROP, 0)]),
            "refused 5 3: nothing may be pending after DROP 0: int, bool are",
        ),
        (both(&[(INT, 1)]), "refused 5 0: the method's last instruction is INT 1, it must be RET or JUMP"),
        (outcomes, "refused 6 2: the outcome is 9, not 0 to 2"),
        (schedule, "refused 7 0: the schedule has 65536 entries, at most 65535 are run"),
        (work, "refused 8 0: the work store has 8255 words, it must have 8256"),
    ]
}

/// The name of a reason's rule.
fn name(reason: &Reason) -> String {
    let shown = format!("{:?}", reason.rule);
    shown.chars().take_while(|c| c.is_alphanumeric()).collect()
}

/// The names of the enum's cases, from its source.
fn listed() -> BTreeSet<String> {
    let source = include_str!("../../lanq/src/reason/rule.rs");
    let cases = source.lines().skip_while(|line| !line.starts_with("pub enum Rule {")).skip(1);
    let cases = cases.take_while(|line| *line != "}").map(str::trim);
    let cases = cases.filter(|line| line.starts_with(char::is_uppercase));
    cases.map(|line| line.chars().take_while(|c| c.is_alphanumeric()).collect()).collect()
}

#[test]
fn every_rule_has_the_place_of_the_check() {
    let mut met = BTreeSet::new();
    for (case, words) in every_rule() {
        let reason = agreed(&case).unwrap_or_else(|| panic!("accepted: {words}"));
        assert_eq!(reason.to_string(), words);
        met.insert(name(&reason));
    }
    assert_eq!(met, listed());
}

/// The generated inputs, as they are and with one word changed.
#[test]
fn reasons_agree_on_generated_inputs() {
    let mut met = BTreeSet::new();
    for seed in 0..12_000 {
        let mut case = case(seed);
        met.extend(agreed(&case).map(|reason| name(&reason)));
        let mut random = Random::new(seed);
        if !case.program.is_empty() {
            let at = random.below(case.program.len());
            case.program[at] = random.below(40) as u16;
            met.extend(agreed(&case).map(|reason| name(&reason)));
        }
    }
    let listed = listed();
    let missing: Vec<&String> = listed.difference(&met).collect();
    assert!(missing.is_empty(), "{missing:?}");
}
