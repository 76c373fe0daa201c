//! The printing program on files of any bytes.

mod common;

use common::*;
use data::file::file;
use data::program::{op::*, table};
use model::print::print;

/// Main returns at once.
fn small() -> Vec<u16> {
    table(&[main_method(&[], &[(RET, 0)])])
}

/// The file of the small program: 24 header bytes, 48 of program, then a
/// schedule of three bytes and two outcomes.
fn small_file() -> Vec<u8> {
    file(&small(), &[1, 0, 0], &[0, 1])
}

const REFUSED_9: &str = "refused 9 0\n";

/// The small file with one 32-bit number of its header set.
fn with_number(index: usize, number: u32) -> Vec<u8> {
    let mut bytes = small_file();
    bytes[4 * index..4 * index + 4].copy_from_slice(&number.to_le_bytes());
    bytes
}

#[test]
fn the_small_file() {
    let bytes = small_file();
    assert_eq!(bytes.len(), 24 + 48 + 3 + 2);
    assert_eq!(bytes[..12], [24, 0, 0, 0, 48, 0, 0, 0, 72, 0, 0, 0]);
    assert_eq!(bytes[12..24], [3, 0, 0, 0, 75, 0, 0, 0, 2, 0, 0, 0]);
    assert_eq!(bytes[24..28], [1, 0, 1, 0]);
    assert_eq!(print(&bytes), "1 0 9 - - -\nend 1 2 1 0\n");
}

#[test]
fn empty_parts_carry_their_offsets() {
    assert_eq!(print(&file(&small(), &[], &[])), "end 0 0 0 0\n");
    assert_eq!(print(&file(&[], &[0], &[0])), "refused 1 0\n");
    assert_eq!(print(&file(&[], &[], &[])), "refused 1 0\n");
    // An empty part at another offset is no such file.
    let mut bytes = file(&small(), &[], &[]);
    bytes[16] = 0;
    assert_eq!(print(&bytes), REFUSED_9);
}

#[test]
fn files_otherwise_built() {
    assert_eq!(print(&[]), REFUSED_9);
    assert_eq!(print(&[24; 23]), REFUSED_9);
    assert_eq!(print(&[0; 24]), REFUSED_9);
    let offsets = [(0, 24), (2, 72), (4, 75)];
    for (index, right) in offsets {
        assert_eq!(print(&with_number(index, right)), print(&small_file()));
        for wrong in [right - 1, right + 1, 0, u32::MAX] {
            assert_eq!(print(&with_number(index, wrong)), REFUSED_9);
        }
    }
    let lengths = [(1, 48), (3, 3), (5, 2)];
    for (index, right) in lengths {
        for wrong in [right - 1, right + 1, right + 2, u32::MAX, 1 << 31] {
            assert_eq!(print(&with_number(index, wrong)), REFUSED_9);
        }
    }
    let mut longer = small_file();
    longer.push(0);
    assert_eq!(print(&longer), REFUSED_9);
    let bytes = small_file();
    assert_eq!(print(&bytes[..bytes.len() - 1]), REFUSED_9);
}

#[test]
fn sums_do_not_wrap() {
    // 24 + 0xFFFFFFE8 would wrap to 0, then the rest would start there.
    let mut bytes = with_number(1, 0xFFFF_FFE8);
    bytes[8..12].copy_from_slice(&0u32.to_le_bytes());
    bytes[12..16].copy_from_slice(&75u32.to_le_bytes());
    assert_eq!(print(&bytes), REFUSED_9);
}

#[test]
fn parts_in_another_order() {
    let bytes = small_file();
    let mut swapped = bytes.clone();
    swapped[..8].copy_from_slice(&bytes[8..16]);
    swapped[8..16].copy_from_slice(&bytes[..8]);
    assert_eq!(print(&swapped), REFUSED_9);
}

#[test]
fn an_odd_program_length_comes_before_all() {
    // The schedule's first byte counts to the program: adjacent, but odd.
    let mut bytes = small_file();
    bytes[4] = 49;
    bytes[8] = 73;
    bytes[12] = 2;
    assert_eq!(print(&bytes), REFUSED_9);
    let mut bytes = file(&[], &[7], &[]);
    bytes[4] = 1;
    bytes[8] = 25;
    bytes[12] = 0;
    assert_eq!(print(&bytes), REFUSED_9);
}

#[test]
fn the_longest_file() {
    let schedule = vec![9; 65_536 - 24 - 48];
    let bytes = file(&small(), &schedule, &[]);
    assert_eq!(bytes.len(), 65_536);
    assert_eq!(print(&bytes), "end 0 65464 0 0\n");
    let schedule = vec![9; 65_536 - 24 - 48 + 1];
    assert_eq!(print(&file(&small(), &schedule, &[])), REFUSED_9);
}

#[test]
fn refusals_give_number_and_place() {
    assert_eq!(print(&file(&[1, 1], &[], &[])), "refused 1 0\n");
    let bad = table(&[main_method(&[], &[(RET, 0), (INT, 1), (RET, 0)])]);
    assert_eq!(print(&file(&bad, &[], &[])), "refused 5 2\n");
    let outcomes = [0, 1, 0, 9];
    assert_eq!(print(&file(&small(), &[], &outcomes)), "refused 6 3\n");
}

#[test]
fn every_kind_has_its_columns() {
    let main = [
        (NEWC, 1),
        (PUT, 0),
        (END, 0),
        (PUT, 1),
        (DROP, 0),
        (NEWQ, 0),
        (PUT, 2),
        (GATE, 1),
        (GET, 2),
        (NEWQ, 0),
        (GATE, 6),
        (GET, 2),
        (MEAS, 0),
        (DROP, 0),
        (GET, 0),
        (END, 1),
        (INT, 3),
        (FORK, 1),
        (GET, 1),
        (INT, 65_535),
        (SEND, 0),
        (GET, 2),
        (GET, 2),
        (GATE, 8),
        (RET, 0),
    ];
    let child = [(GET, 0), (RECV, 0), (DROP, 0), (RET, 0)];
    let words =
        table(&[main_method(&[CHANNEL_INT, END_INT, QBIT], &main), method(VOID, &[END_INT, INT_TYPE], &[], &child)]);
    let schedule = [[0; 20].as_slice(), &[1, 1, 1, 1, 0, 0, 0]].concat();
    let expected = "\
0 0 2 0 - -
5 0 1 0 - -
7 0 3 1 0 -
9 0 1 1 - -
10 0 3 6 0 1
12 0 4 0 1 -
17 0 5 1 1 2
17 0 6 1 6 0
21 0 7 1 0 0
21 0 8 65535 65535 -
23 1 9 - - -
26 0 10 27 - -
end 1 27 12 1
";
    assert_eq!(print(&file(&words, &schedule, &[1, 0])), expected);
}

#[test]
fn the_trace_holds_4096_lines() {
    // Four lines a turn: gates on one qubit, for ever.
    let mut code = vec![(NEWQ, 0), (PUT, 0), (DROP, 0)];
    code.extend([(GET, 0), (GATE, 3)].repeat(4));
    code.push((JUMP, 3));
    let words = table(&[main_method(&[QBIT], &code)]);
    let text = print(&file(&words, &vec![0; 12_000], &[]));
    assert_eq!(text.lines().count(), 4097);
    // Line 4096 is gate 4095: 1023 turns of 9 entries, then three gates.
    // Gate n of a turn stands at its entry 2n + 1, the turn starts at 3 + 9t.
    assert_eq!(text.lines().nth(4095), Some("9215 0 3 3 0 -"));
    // The next gate's GET is still taken.
    assert_eq!(text.lines().last(), Some("end 3 9217 4096 0"));
}
