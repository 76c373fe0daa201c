//! The generated cases bring about everything that coverage asks for, and the
//! ownership statement holds after every one of their entries.

use std::collections::{BTreeMap, BTreeSet};

use generate::{case, file, observe, pair, trace, Coverage, Difference, Mark};
use model::lookup::same_lines;
use model::print::print;

#[test]
fn cases_cover_everything() {
    let mut coverage = Coverage::new();
    for seed in 0..5_000 {
        if let Err(why) = observe(&case(seed), &mut coverage) {
            panic!("seed {seed}: {why}");
        }
    }
    assert_eq!(coverage.missing(), []);
}

#[test]
fn coverage_says_what_is_missing() {
    let mut coverage = Coverage::new();
    let all = coverage.missing().len();
    coverage.add(Mark::End(2));
    coverage.add(Mark::End(2));
    assert_eq!(coverage.count(Mark::End(2)), 2);
    assert_eq!(coverage.count(Mark::End(1)), 0);
    assert_eq!(coverage.missing().len(), all - 1);
    assert!(!coverage.missing().contains(&Mark::End(2)));
}

#[test]
fn a_seed_names_one_case() {
    for seed in [0, 1, 77, u64::MAX] {
        assert_eq!(case(seed), case(seed));
        assert_eq!(file(seed), file(seed));
        assert_eq!(trace(seed), trace(seed));
        assert_eq!(pair(seed), pair(seed));
    }
    let cases: BTreeSet<Vec<u16>> = (0..50).map(|seed| case(seed).program).collect();
    assert!(cases.len() > 45);
}

/// Pairs of traces differ in every way, and are the same by the model where
/// they are by the way in which they were made.
#[test]
fn pairs_cover_every_difference() {
    let mut counts: BTreeMap<Difference, u64> = BTreeMap::new();
    for seed in 0..5_000 {
        let pair = pair(seed);
        assert_eq!(same_lines(&pair.first, &pair.second), pair.difference.is_same(), "seed {seed}: {pair:?}");
        *counts.entry(pair.difference).or_default() += 1;
    }
    for difference in Difference::ALL {
        assert!(counts.get(&difference).is_some_and(|count| *count > 20), "{difference:?}: {counts:?}");
    }
}

/// The first two words of the last printed line.
fn class_of(text: &str) -> String {
    let last = text.lines().last().unwrap_or("");
    let words: Vec<&str> = last.split(' ').take(2).collect();
    words.join(" ")
}

#[test]
fn files_cover_every_answer() {
    let files = (0..3_000).map(file);
    let classes: BTreeSet<String> = files.map(|bytes| class_of(&print(&bytes))).collect();
    let expected = [
        "end 0",
        "end 1",
        "end 2",
        "end 3",
        "refused 1",
        "refused 2",
        "refused 3",
        "refused 4",
        "refused 5",
        "refused 6",
        "refused 9",
    ];
    let expected: BTreeSet<String> = expected.iter().map(|text| text.to_string()).collect();
    assert_eq!(classes, expected);
}
