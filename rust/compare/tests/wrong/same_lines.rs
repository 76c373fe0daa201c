//! Wrong same-lines answers.

use compare::traces::PAIRS;
use generate::pair;
use model::lookup::{same_lines, whole_lines};

type Wrong = (&'static str, fn(&[u16], &[u16]) -> bool);

/// All columns but the entry.
const COLUMNS: [usize; 5] = [1, 2, 3, 4, 5];

const WRONG: [Wrong; 16] = [
    // As it was before Paper 11.
    ("the entries are left out", |a, b| alike(a, b, &COLUMNS)),
    ("the entries are compared as they are", |a, b| whole_lines(a) == whole_lines(b)),
    ("gaps are wrapped at 16 bits", |a, b| by_gap(a, b, |gap| gap & 65_535)),
    ("gaps have no sign", |a, b| by_gap(a, b, i32::abs)),
    ("only the direction of a gap counts", |a, b| by_gap(a, b, i32::signum)),
    ("gaps have 16 bits", |a, b| by_gap(a, b, |gap| gap.clamp(-32_768, 32_767))),
    ("the first gap is left out", |a, b| by_gaps(a, b, |gaps| gaps.iter().skip(1).copied().collect())),
    ("the last gap is left out", |a, b| by_gaps(a, b, |gaps| gaps.iter().rev().skip(1).copied().collect())),
    ("the gaps are added up", |a, b| by_gaps(a, b, |gaps| vec![gaps.iter().sum()])),
    ("the process is left out", |a, b| alike(a, b, &[2, 3, 4, 5]) && gaps(a) == gaps(b)),
    ("the kind is left out", |a, b| alike(a, b, &[1, 3, 4, 5]) && gaps(a) == gaps(b)),
    ("a is left out", |a, b| alike(a, b, &[1, 2, 4, 5]) && gaps(a) == gaps(b)),
    ("b is left out", |a, b| alike(a, b, &[1, 2, 3, 5]) && gaps(a) == gaps(b)),
    ("c is left out", |a, b| alike(a, b, &[1, 2, 3, 4]) && gaps(a) == gaps(b)),
    ("lines that only one trace has are left out", as_far_as_both_go),
    ("a part of a line counts", |a, b| a.len() == b.len() && same_lines(a, b)),
];

/// Whether these columns are the same in all lines.
fn alike(a: &[u16], b: &[u16], columns: &[usize]) -> bool {
    let read = |words| -> Vec<Vec<u16>> {
        let lines = whole_lines(words).into_iter();
        lines.map(|line| columns.iter().map(|column| line.words()[*column]).collect()).collect()
    };
    read(a) == read(b)
}

fn gaps(words: &[u16]) -> Vec<i32> {
    whole_lines(words).windows(2).map(|two| i32::from(two[1].entry) - i32::from(two[0].entry)).collect()
}

/// With something else made of all gaps.
fn by_gaps(a: &[u16], b: &[u16], made: fn(&[i32]) -> Vec<i32>) -> bool {
    alike(a, b, &COLUMNS) && made(&gaps(a)) == made(&gaps(b))
}

/// With something else made of each gap.
fn by_gap(a: &[u16], b: &[u16], made: fn(i32) -> i32) -> bool {
    let made = |words| gaps(words).into_iter().map(made).collect::<Vec<i32>>();
    alike(a, b, &COLUMNS) && made(a) == made(b)
}

fn as_far_as_both_go(a: &[u16], b: &[u16]) -> bool {
    let words = 6 * (a.len() / 6).min(b.len() / 6);
    same_lines(&a[..words], &b[..words])
}

/// On the pairs that the comparison has.
#[test]
fn every_wrong_same_lines_answer_is_told_apart() {
    let mut hidden = WRONG.to_vec();
    for seed in 0..PAIRS {
        let pair = pair(seed);
        let right = same_lines(&pair.first, &pair.second);
        hidden.retain(|(name, wrong)| {
            let differs = wrong(&pair.first, &pair.second) != right;
            if differs {
                println!("pair {seed:3}, {:?}: {name}", pair.difference);
            }
            !differs
        });
    }
    let names: Vec<&str> = hidden.iter().map(|(name, _)| *name).collect();
    assert!(names.is_empty(), "not told apart: {names:?}");
}
