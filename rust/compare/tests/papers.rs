//! The library's run beside what documents 01 and 02 and docs/LAYOUT.md say word
//! by word: no model stands between.

use data::program::{op::*, table, Method};
use lanq::{decode, run_in, Answer, End, LookUp, Question, Refusal, Side, Thing, WORK_WORDS};

/// The number in an unused column.
const U: u16 = 65_535;

fn method(return_type: u16, parameters: &[u16], locals: &[u16], code: &[(u16, u16)]) -> Method {
    Method {
        return_type,
        parameters: parameters.len() as u16,
        slots: [parameters, locals].concat(),
        code: code.to_vec(),
    }
}

/// "A run given whole", its words typed from 01.
fn given_whole() -> Vec<u16> {
    let main = [
        [7, 0, 4, 0, 5, 0, 8, 3, 4, 1, 9, 0, 4, 2, 5, 0, 3, 1],
        [9, 1, 14, 1, 3, 2, 3, 0, 15, 0, 3, 0, 11, 0, 5, 0, 13, 0],
    ];
    let main: Vec<(u16, u16)> = main.concat().chunks_exact(2).map(|two| (two[0], two[1])).collect();
    let other = [(3, 0), (16, 0), (10, 4), (13, 0)];
    table(&[method(0, &[], &[3, 19, 35], &main), method(0, &[35], &[], &other)])
}

const SCHEDULE: [u8; 18] = [0, 0, 0, 0, 0, 0, 0, 0, 0, 0, 0, 1, 0, 0, 0, 1, 1, 0];

/// End, entries, lines and outcomes.
type Counts = (u16, usize, usize, usize);

/// The counts of a run without outcomes, with its lines and its store.
fn ran(program: &[u16], schedule: &[u8]) -> (Counts, Vec<[u16; 6]>, Vec<u32>) {
    ran_with(program, schedule, &[])
}

fn ran_with(program: &[u16], schedule: &[u8], outcomes: &[u8]) -> (Counts, Vec<[u16; 6]>, Vec<u32>) {
    let mut trace = vec![7; 6 * 100];
    let mut work = vec![7; WORK_WORDS];
    let answer = run_in(program, schedule, outcomes, &mut trace, &mut work).expect("it runs");
    let Answer { end, entries, lines, outcomes } = answer;
    let written = trace.chunks_exact(6).take(lines);
    let written = written.map(|six| six.try_into().expect("six words")).collect();
    ((end.number(), entries, lines, outcomes), written, work)
}

/// The words that are not 0, with their places, up to where the holders stand.
fn not_0(work: &[u32]) -> Vec<(usize, u32)> {
    work[..8_192].iter().copied().enumerate().filter(|(_, word)| *word != 0).collect()
}

/// The holders' words, with their places, that are not 255.
fn held(work: &[u32]) -> Vec<(usize, u32)> {
    let holders = work.iter().copied().enumerate().skip(8_192).take(64);
    holders.filter(|(_, word)| *word != 255).collect()
}

#[test]
fn p1_empty_schedule() {
    let (answer, _, work) = ran(&given_whole(), &[]);
    assert_eq!(answer, (0, 0, 0, 0));
    // One process, which runs in one frame, at main's first instruction.
    assert_eq!(not_0(&work), [(0, 1), (512, 1), (514, 1)]);
    // Paper 7: "255 for a thing not yet made".
    assert_eq!(work[8_192..], [255; 64]);
}

#[test]
fn p2_no_trace_lines() {
    for words in 0..6 {
        let mut trace = vec![9; words];
        let mut work = vec![9; WORK_WORDS];
        let answer = run_in(&given_whole(), &[0], &[], &mut trace, &mut work);
        assert_eq!(answer, Ok(Answer { end: End::TraceFull, entries: 0, lines: 0, outcomes: 0 }));
        assert_eq!(trace, vec![9; words]);
        assert_eq!(not_0(&work), [(0, 1), (512, 1), (514, 1)]);
    }
}

#[test]
fn p3_the_run_given_whole() {
    let (answer, lines, work) = ran(&given_whole(), &SCHEDULE);
    assert_eq!(answer, (1, 18, 9, 0));
    let expected = [
        [0, 0, 1, 0, U, U],
        [3, 0, 2, 0, U, U],
        [10, 0, 5, 1, 1, 1],
        [10, 0, 6, 1, 6, 0],
        [14, 0, 7, 1, 0, 0],
        [14, 0, 6, 1, 3, 0],
        [15, 1, 3, 4, 0, U],
        [16, 1, 9, U, U, U],
        [17, 0, 10, 20, U, U],
    ];
    assert_eq!(lines, expected);
    // The first example of docs/LAYOUT.md.
    let stored = [(0, 2), (1, 1), (2, 1), (512, 3), (513, 20), (514, 1), (521, 14), (580, 5), (1024, 2)];
    assert_eq!(not_0(&work), stored);
    assert_eq!(held(&work), [(8_192, 1), (8_224, 0), (8_225, 1)]);
}

/// Paper 7, on the run given whole: "Before the first entry and after each, every
/// stored holder equals the one the lines give". The words beyond are kept.
#[test]
fn holders_after_each_entry() {
    let program = given_whole();
    for entries in 0..=SCHEDULE.len() {
        let mut work = vec![7; WORK_WORDS + 9];
        run_in(&program, &SCHEDULE[..entries], &[], &mut [0; 60], &mut work).expect("it runs");
        // Qubit 0 is made in entry 0, the channel in entry 3; the fork gives end 1 in
        // entry 10, and the meeting the qubit in entry 14.
        let qubit = [(8_192, u32::from(entries > 14))];
        let ends = [(8_224, 0), (8_225, u32::from(entries > 10))];
        let expected = [&qubit[..usize::from(entries > 0)], if entries > 3 { &ends } else { &[] }].concat();
        assert_eq!(held(&work), expected, "{entries} entries");
        assert_eq!(work[WORK_WORDS..], [7; 9]);
        let stored = |thing| lanq::stored_holder(&work, thing);
        let number = |place| expected.iter().find(|(at, _)| *at == place).map(|(_, holder)| *holder as u16);
        assert_eq!(stored(Thing::Qubit(0)), number(8_192));
        assert_eq!(stored(Thing::End(0, Side::Zero)), number(8_224));
        assert_eq!(stored(Thing::End(0, Side::One)), number(8_225));
        assert_eq!([stored(Thing::Qubit(1)), stored(Thing::End(1, Side::One))], [None; 2]);
    }
}

/// Question 8 asks for 8,256 words: the 8,192 of before are refused, and kept.
#[test]
fn the_store_has_grown() {
    for words in [8_192, 8_255] {
        let mut work = vec![7; words];
        let answer = run_in(&given_whole(), &SCHEDULE, &[], &mut [0; 60], &mut work);
        assert_eq!(answer, Err(Refusal::new(Question::WorkStore, 0)));
        assert_eq!(work, vec![7; words]);
    }
    assert_eq!(WORK_WORDS, 8_256);
}

#[test]
fn p4_p12_refusals_keep_every_word() {
    let whole = given_whole();
    let short = &whole[..whole.len() - 1];
    let refused = |program: &[u16], outcomes: &[u8], question, place| {
        let mut trace = [9; 60];
        let mut work = vec![9; WORK_WORDS];
        let answer = run_in(program, &SCHEDULE, outcomes, &mut trace, &mut work);
        assert_eq!(answer, Err(Refusal::new(question, place)));
        assert_eq!(trace, [9; 60]);
        assert_eq!(work, vec![9; WORK_WORDS]);
    };
    refused(short, &[], Question::Sizes, 0);
    // Paper 3: P12 has moved to byte 3.
    refused(&whole, &[0, 1, 2, 3], Question::Outcomes, 3);
    refused(&[], &[], Question::Sizes, 0);
}

#[test]
fn p5_p6_the_last_qubit() {
    let mut code = [(NEWQ, 0), (DROP, 0)].repeat(33);
    code.push((RET, 0));
    let program = table(&[method(0, &[], &[], &code)]);
    let (answer, lines, _) = ran(&program, &[0; 63]);
    assert_eq!((answer, lines[31]), ((0, 63, 32, 0), [62, 0, 1, 31, U, U]));
    let (answer, lines, work) = ran(&program, &[0; 70]);
    assert_eq!((answer, lines[32]), ((1, 65, 33, 0), [64, 0, 10, 22, U, U]));
    assert_eq!(work[1], 32);
}

#[test]
fn p7_p8_the_largest_int() {
    let plus = |added| {
        let mut code = vec![(INT, 1), (PUT, 0)];
        // 30 doublings: 1073741824.
        code.extend([(GET, 0), (ADD, 0), (PUT, 0)].repeat(30));
        code.extend([(INT, 1), (SUB, 0), (GET, 0), (ADD, 0)]);
        code.extend([(INT, added), (ADD, 0), (PUT, 1), (DROP, 0), (RET, 0)]);
        table(&[method(0, &[], &[1, 1], &code)])
    };
    let (answer, _, work) = ran(&plus(0), &[0; 99]);
    assert_eq!(answer, (0, 99, 0, 0));
    assert_eq!(work[578..580], [1, 2_147_483_647]);
    let (answer, lines, work) = ran(&plus(1), &[0; 99]);
    assert_eq!(answer, (1, 98, 1, 0));
    assert_eq!(lines, [[97, 0, 10, 26, U, U]]);
    // Both operands are as they were before the entry.
    assert_eq!(work[608..612], [1, 2_147_483_647, 1, 1]);
}

#[test]
fn p9_cx_on_one_qubit() {
    let code = [(NEWQ, 0), (PUT, 0), (GET, 0), (GATE, 6), (RET, 0)];
    let (answer, lines, _) = ran(&table(&[method(0, &[], &[3], &code)]), &[0; 9]);
    assert_eq!(answer, (1, 4, 2, 0));
    assert_eq!(lines[1], [3, 0, 10, 27, U, U]);
}

#[test]
fn p10_a_value_already_evaluated() {
    let main = [(NEWQ, 0), (PUT, 0), (DROP, 0), (GET, 0), (GET, 0), (CALL, 1), (GATE, 6), (RET, 0)];
    let forks = [(GET, 0), (FORK, 2), (NEWQ, 0), (RET, 0)];
    let program =
        table(&[method(0, &[], &[3], &main), method(3, &[3], &[], &forks), method(0, &[3], &[], &[(RET, 0)])]);
    let (answer, lines, work) = ran(&program, &[0; 11]);
    assert_eq!(answer, (0, 11, 5, 0));
    assert_eq!(lines[4], [10, 0, 10, 20, U, U]);
    // The second example of docs/LAYOUT.md.
    let main = [(0, 2), (1, 2), (512, 3), (513, 20), (514, 1), (521, 6), (522, 2), (610, 3), (611, 1)];
    let child = [(1024, 1), (1026, 1), (1032, 2), (1033, 12), (1088, 3)];
    assert_eq!(not_0(&work), [&main[..], &child].concat());
    assert_eq!(held(&work), [(8_192, 1), (8_193, 0)]);
    let pending = &decode(&work).expect("a configuration").processes[0].frames[0].pending;
    assert_eq!(pending[..], [lanq::Value::Empty, lanq::Value::Qubit(1)]);
}

/// Case P11 as it stood, and Paper 6: "with one more entry of main, now ends with
/// main stopped and end 1".
#[test]
fn p11_the_partner_is_gone() {
    let main = [
        [(NEWC, 1), (PUT, 0), (END, 0), (PUT, 1), (DROP, 0), (GET, 0)],
        [(END, 1), (FORK, 1), (GET, 1), (INT, 5), (SEND, 0), (RET, 0)],
    ];
    let main = method(0, &[], &[17, 33], &main.concat());
    let program = table(&[main, method(0, &[33], &[], &[(RET, 0)])]);
    let schedule = [0, 0, 0, 0, 0, 0, 0, 0, 0, 0, 1, 0, 0];
    assert_eq!(ran(&program, &schedule[..10]).0, (0, 10, 3, 0));
    // Main, which was never named at SEND, is able to move.
    assert_eq!(ran(&program, &schedule[..11]).0, (0, 11, 4, 0));
    for used in 12..=13 {
        let (answer, lines, work) = ran(&program, &schedule[..used]);
        assert_eq!((answer, lines[4]), ((1, 12, 5, 0), [11, 0, 10, 33, U, U]));
        // It keeps end 0 of channel 0, in slot 1 and below the 5.
        assert_eq!((&work[512..515], &work[521..523]), (&[3, 33, 1][..], &[10, 2][..]));
        assert_eq!((&work[578..580], &work[608..612]), (&[5, 0][..], &[5, 0, 1, 5][..]));
    }
}

/// Paper 6: the process itself holds the opposite end, or a station that 33 has
/// stopped does. The holder of an end that main has cleared is still there.
#[test]
fn stations_go() {
    // Main receives over its own channel.
    let alone = [(NEWC, 1), (END, 1), (RECV, 0), (DROP, 0), (RET, 0)];
    let alone = table(&[method(0, &[], &[], &alone)]);
    assert_eq!(ran(&alone, &[0, 0]).0, (0, 2, 1, 0));
    let (answer, lines, _) = ran(&alone, &[0, 0, 0, 0]);
    assert_eq!((answer, lines[1]), ((1, 3, 2, 0), [2, 0, 10, 33, U, U]));
    // Main clears its end; station 1 waits for main, station 2 for station 1.
    let makes = [(NEWC, 1), (PUT, 0), (END, 0), (PUT, 1), (DROP, 0), (GET, 0), (END, 1)];
    let main = [&makes[..], &[(FORK, 1), (CLEAR, 1), (CLEAR, 1), (RET, 0)]].concat();
    let first = [(NEWC, 1), (END, 1), (FORK, 2), (GET, 0), (RECV, 0), (DROP, 0), (RET, 0)];
    let second = [(GET, 0), (INT, 1), (SEND, 0), (RET, 0)];
    let program =
        table(&[method(0, &[], &[17, 33], &main), method(0, &[33], &[], &first), method(0, &[33], &[], &second)]);
    let ready = [[0; 9].as_slice(), &[1; 4], &[2; 2]].concat();
    // Both wait: no line, no end 2 as long as main runs.
    let in_vain = [ready.as_slice(), &[1, 2, 1, 2, 0]].concat();
    assert_eq!(ran(&program, &in_vain).0, (0, 20, 6, 0));
    let goes = [ready.as_slice(), &[0, 0, 2, 1, 2]].concat();
    let (answer, lines, _) = ran(&program, &goes);
    assert_eq!(answer, (1, 20, 9, 0));
    assert_eq!(lines[6..], [[16, 0, 9, U, U, U], [18, 1, 10, 33, U, U], [19, 2, 10, 33, U, U]]);
}

/// Paper 3: "MEAS pushes 2 and the line says 2", and "A run without any 2 gives
/// what it gave before".
#[test]
fn no_click() {
    let code =
        [(NEWQ, 0), (PUT, 0), (MEAS, 0), (PUT, 1), (DROP, 0), (GET, 0), (MEAS, 0), (PUT, 2), (DROP, 0), (RET, 0)];
    let program = table(&[method(0, &[], &[3, 1, 1], &code)]);
    for outcomes in [[0, 1], [1, 1], [2, 1], [0, 2], [2, 2]] {
        let (answer, lines, work) = ran_with(&program, &[0; 9], &outcomes);
        let [first, second] = outcomes.map(u16::from);
        assert_eq!(lines, [[0, 0, 1, 0, U, U], [2, 0, 4, 0, first, U], [6, 0, 4, 0, second, U]]);
        assert_eq!(answer, (0, 9, 3, 2));
        assert_eq!(work[578..582], [1, u32::from(first), 1, u32::from(second)]);
    }
}

/// Paper 4, on the lines of the run given whole: qubit 0 is made in line 0 and
/// given to process 1 in line 5.
#[test]
fn the_look_up_reads_from_the_back() {
    let trace = ran(&given_whole(), &SCHEDULE).1.concat();
    let held = |k, qubit| {
        let LookUp { holder, read } = lanq::holder(&trace, k, qubit);
        (holder, read)
    };
    assert_eq!([held(0, 0), held(1, 0), held(5, 0)], [(None, 0), (Some(0), 1), (Some(0), 5)]);
    assert_eq!([held(6, 0), held(9, 0), held(10, 0)], [(Some(1), 1), (Some(1), 4), (Some(1), 4)]);
    assert_eq!([held(5, 1), held(usize::MAX, 1)], [(None, 5), (None, 9)]);
}

/// Paper 11, on the lines of the run given whole. The schedule that idles first
/// gives the same lines later; one that idles on the way gives other gaps.
#[test]
fn same_lines_need_equal_gaps() {
    let trace = |schedule: &[u8]| ran(&given_whole(), schedule).1.concat();
    let given = trace(&SCHEDULE);
    let idles_first = [&[3, 3][..], &SCHEDULE].concat();
    let idles_later = [&SCHEDULE[..17], &[3, 3], &SCHEDULE[17..]].concat();
    assert_eq!(trace(&idles_first)[6 * 8], 19);
    assert!(lanq::same_lines(&given, &trace(&idles_first)));
    assert_eq!(trace(&idles_later)[6 * 8], 19);
    assert!(!lanq::same_lines(&given, &trace(&idles_later)));
    assert!(lanq::same_lines(&given[..48], &trace(&idles_later)[..48]));
    // "counted with its sign and never wrapped"
    let two = |first, second| [first, 0, 9, U, U, U, second, 1, 9, U, U, U];
    assert!(lanq::same_lines(&two(0, 5), &two(65_530, 65_535)));
    assert!(!lanq::same_lines(&two(0, 5), &two(5, 0)));
    assert!(!lanq::same_lines(&two(0, 5), &two(65_531, 0)));
    assert!(!lanq::same_lines(&two(0, 65_535), &two(65_535, 0)));
}

/// The longest schedule, to its last entry.
#[test]
fn every_entry_of_the_longest_schedule() {
    let code = [(NEWQ, 0), (PUT, 0), (DROP, 0), (CLEAR, 1), (GET, 0), (GATE, 1), (JUMP, 3)];
    let program = table(&[method(0, &[], &[3, 1], &code)]);
    let mut trace = vec![0; 6 * 20_000];
    let mut work = vec![0; WORK_WORDS];
    let answer = run_in(&program, &[0; 65_535], &[], &mut trace, &mut work);
    // A gate in entries 5, 9, 13 and so on, after the qubit's line.
    let lines = 1 + (65_534 - 5) / 4 + 1;
    assert_eq!(answer, Ok(Answer { end: End::ScheduleUsed, entries: 65_535, lines, outcomes: 0 }));
    assert_eq!(trace[6 * (lines - 1)..6 * lines], [65_533, 0, 3, 1, 0, U]);
    assert_eq!(trace[6 * lines], 0);
    let answer = run_in(&program, &[0; 65_536], &[], &mut trace, &mut work);
    assert_eq!(answer, Err(Refusal::new(Question::Schedule, 0)));
}
