//! The look-up of a qubit's holder and the same-lines answer, on any words.

use data::LookUp;
use model::lookup::{look_up, qubit_holder, same_lines};

const U: u16 = 65_535;

/// Made by 2, given to 4, made again by 6 (no run writes that), given to 1.
const WORDS: [u16; 24] = [
    0, 2, 1, 9, U, U, //
    1, 2, 6, 4, 3, 9, //
    2, 6, 1, 9, U, U, //
    3, 6, 6, 1, 3, 9,
];

#[test]
fn the_latest_line_answers() {
    assert_eq!(qubit_holder(&WORDS, 0, 9), U);
    assert_eq!(qubit_holder(&WORDS, 1, 9), 2);
    assert_eq!(qubit_holder(&WORDS, 2, 9), 4);
    assert_eq!(qubit_holder(&WORDS, 3, 9), 6);
    assert_eq!(qubit_holder(&WORDS, 4, 9), 1);
    // All, if there are fewer than k.
    assert_eq!(qubit_holder(&WORDS, 5, 9), 1);
    assert_eq!(qubit_holder(&WORDS, usize::MAX, 9), 1);
    assert_eq!(qubit_holder(&WORDS, 4, 8), U);
}

#[test]
fn only_whole_lines_count() {
    assert_eq!(qubit_holder(&WORDS[..23], 4, 9), 6);
    assert_eq!(qubit_holder(&WORDS[..5], 4, 9), U);
    assert_eq!(qubit_holder(&[], 4, 9), U);
}

#[test]
fn other_kinds_and_things_do_not_count() {
    let lines = [
        [0, 2, 1, 9, U, U],
        [1, 3, 2, 9, U, U],
        [2, 3, 6, 4, 4, 9],
        [3, 3, 6, 4, 5, 9],
        [4, 3, 6, 4, 3, 8],
        [5, 3, 4, 9, 1, U],
        [6, 3, 0, 9, 3, 9],
        [7, 3, U, 9, 3, 9],
    ];
    assert_eq!(qubit_holder(&lines.concat(), 8, 9), 2);
}

#[test]
fn unused_columns_may_hold_anything() {
    // Kind 1 goes by columns 2 and 3, kind 6 by 2, 4 and 5.
    assert_eq!(qubit_holder(&[U, 500, 1, 40_000, 1, 2], 1, 40_000), 500);
    assert_eq!(qubit_holder(&[7, 7, 6, 600, 3, U], 1, U), 600);
    // An answer may itself be 65535, and hides an earlier one.
    let lines = [[0, 1, 1, 5, 0, 0], [0, 1, 6, U, 3, 5]];
    assert_eq!(qubit_holder(&lines.concat(), 2, 5), U);
    let lines = [[0, 1, 6, 3, 3, 5], [0, U, 1, 5, 0, 0]];
    assert_eq!(qubit_holder(&lines.concat(), 2, 5), U);
}

fn found(holder: u16, read: usize) -> LookUp {
    LookUp { holder: Some(holder), read }
}

fn nobody(read: usize) -> LookUp {
    LookUp { holder: None, read }
}

/// Paper 4: "from the last one backwards and stop at the line that decides".
#[test]
fn the_look_up_reads_from_the_back() {
    let other = [[4, 6, 3, 1, 9, U], [5, 6, 4, 9, 0, U], [6, 6, 6, 0, 5, 9]].concat();
    let words = [&WORDS[..], &other].concat();
    // Of the first k lines only those from the one that decides on.
    for (k, answer) in [(1, found(2, 1)), (2, found(4, 1)), (3, found(6, 1)), (4, found(1, 1))] {
        assert_eq!(look_up(&words, k, 9), answer);
    }
    assert_eq!(look_up(&words, 5, 9), found(1, 2));
    assert_eq!(look_up(&words, 7, 9), found(1, 4));
    // "all, if fewer": what is read is counted, not k.
    assert_eq!(look_up(&words, 8, 9), found(1, 4));
    assert_eq!(look_up(&words, usize::MAX, 9), found(1, 4));
}

/// "every one when none decides"
#[test]
fn the_look_up_reads_every_line_when_none_decides() {
    assert_eq!(look_up(&WORDS, 0, 9), nobody(0));
    assert_eq!(look_up(&WORDS, 3, 8), nobody(3));
    assert_eq!(look_up(&WORDS, 4, 8), nobody(4));
    assert_eq!(look_up(&WORDS, 5, 8), nobody(4));
    assert_eq!(look_up(&WORDS[..23], 9, 8), nobody(3));
    assert_eq!(look_up(&[], 4, 9), nobody(0));
    // A line that decides for 65535 decides all the same.
    let lines = [[0, 1, 1, 5, 0, 0], [0, 1, 6, U, 3, 5], [0, 1, 3, 1, 5, U]];
    assert_eq!(look_up(&lines.concat(), 3, 5), nobody(2));
}

/// "its promise stays"
#[test]
fn the_look_up_answers_what_it_promised() {
    let lines = [[0, 2, 1, 1, U, U], [1, 2, 6, 4, 3, 1], [2, 6, 1, 2, 3, 1], [3, 6, 6, U, 3, 2], [4, 0, 6, 7, 4, 1]];
    let words = [&WORDS[..], &lines.concat(), &[5, 5, 1, 1]].concat();
    for qubit in 0..12 {
        for k in 0..12 {
            let holder = look_up(&words, k, qubit).holder;
            assert_eq!(holder.unwrap_or(U), qubit_holder(&words, k, qubit), "{k}, {qubit}");
        }
    }
}

/// The lines of `WORDS` in other entries.
fn in_entries(entries: [u16; 4]) -> [u16; 24] {
    let mut words = WORDS;
    for (line, entry) in entries.into_iter().enumerate() {
        words[6 * line] = entry;
    }
    words
}

/// Whether traces in these entries are the same, asked both ways.
fn same_in(first: [u16; 4], second: [u16; 4]) -> bool {
    let (first, second) = (in_entries(first), in_entries(second));
    let same = same_lines(&first, &second);
    assert_eq!(same, same_lines(&second, &first));
    same
}

/// Paper 11: "Traces shifted as a whole still match."
#[test]
fn traces_shifted_as_a_whole_are_the_same() {
    assert!(same_in([0, 1, 2, 3], [0, 1, 2, 3]));
    assert!(same_in([0, 1, 2, 3], [100, 101, 102, 103]));
    assert!(same_in([7, 7, 7, 7], [0, 0, 0, 0]));
    assert!(same_in([0, 9, 4, 65_000], [535, 544, 539, 65_535]));
}

/// "Same shall now also need equal gaps", the last one too.
#[test]
fn every_gap_counts() {
    assert!(!same_in([0, 1, 2, 3], [0, 2, 3, 4]));
    assert!(!same_in([0, 1, 2, 3], [0, 1, 3, 4]));
    assert!(!same_in([0, 1, 2, 3], [0, 1, 2, 4]));
    assert!(!same_in([0, 1, 2, 3], [100; 4]));
    // Two gaps that make up for each other.
    assert!(!same_in([0, 4, 8, 9], [0, 5, 8, 9]));
}

/// "counted with its sign and never wrapped"
#[test]
fn gaps_have_a_sign_and_do_not_wrap() {
    assert!(!same_in([10, 15, 15, 15], [15, 10, 10, 10]));
    assert!(!same_in([0, 5, 6, 7], [65_531, 0, 1, 2]));
    assert!(!same_in([0, 1, 2, 3], [65_535, 0, 1, 2]));
    // From -65,535 to 65,535.
    assert!(!same_in([0, 0, 0, 65_535], [65_535, 65_535, 65_535, 0]));
    assert!(!same_in([0, 65_535, 0, 65_535], [0, 65_535, 0, 65_534]));
    assert!(!same_in([0, 0, 0, 65_535], [1, 1, 1, 0]));
}

/// One line has no gap.
#[test]
fn one_line_is_the_same_in_any_entry() {
    let late = in_entries([65_535, 0, 0, 0]);
    assert!(same_lines(&WORDS[..6], &late[..6]));
    // What belongs to a part of a line does not count.
    assert!(same_lines(&WORDS[..6], &late[..11]));
    assert!(!same_lines(&WORDS[..12], &late[..12]));
}

#[test]
fn every_other_column_counts() {
    assert!(same_lines(&WORDS, &WORDS));
    for place in (0..24).filter(|place| place % 6 != 0) {
        let mut other = WORDS;
        other[place] ^= 1;
        assert!(!same_lines(&WORDS, &other), "word {place}");
        assert!(!same_lines(&other, &WORDS), "word {place}");
    }
}

#[test]
fn the_numbers_of_lines_must_agree() {
    assert!(!same_lines(&WORDS, &WORDS[..18]));
    assert!(!same_lines(&WORDS[..18], &WORDS));
    // A part of a line is ignored.
    assert!(same_lines(&WORDS[..18], &WORDS[..23]));
    assert!(!same_lines(&WORDS[..23], &WORDS));
    assert!(same_lines(&[], &[]));
    assert!(same_lines(&[1, 2, 3], &[]));
    assert!(same_lines(&[1, 2, 3, 4, 5], &[9]));
    assert!(!same_lines(&WORDS[..6], &[]));
}
