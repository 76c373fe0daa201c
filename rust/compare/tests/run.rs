//! The run of the library and of the model on generated inputs: the answer,
//! every word of trace and work store and of what lies around them, and the
//! configuration read back.
//!
//! The gate's part takes seconds. A million inputs that it does not have:
//!
//!     cargo test --release --offline -p compare --test run -- --ignored --nocapture

use std::collections::BTreeMap;
use std::ops::Range;
use std::time::Instant;

use compare::inputs::{input, shortest};
use compare::result::{by_library, by_model, difference, Buffers};
use data::{Answer, Refusal, WORK_WORDS};
use generate::{observe, Case, Coverage, Mark, Random, StoredHolder};

/// What the inputs have brought about.
#[derive(Default)]
struct Totals {
    coverage: Coverage,
    /// Accepted and refused, by how the store's length stands to what is asked.
    lengths: BTreeMap<(bool, std::cmp::Ordering), u64>,
    entries: usize,
    lines: usize,
}

/// Runs an input on both sides: what the library answers, and a difference.
fn both(number: u64, case: &Case, coverage: &mut Coverage) -> (Result<Answer, Refusal>, Option<String>) {
    let buffers = Buffers::dirty(case, &mut Random::new(number));
    let before = case.clone();
    let library = by_library(case, buffers.clone());
    assert_eq!(*case, before, "input {number} was written");
    let ran = observe(case, coverage).unwrap_or_else(|why| panic!("input {number}: {why}"));
    let difference = difference(&library, &by_model(&ran, buffers));
    (library.answer, difference)
}

fn compare(number: u64, case: &Case, met: &mut Totals) {
    let (answer, difference) = both(number, case, &mut met.coverage);
    if let Some(difference) = difference {
        let differs = |case: &Case| both(number, case, &mut Coverage::new()).1.is_some();
        panic!("input {number}: {difference}\n{:?}", shortest(case, differs));
    }
    if let Ok(answer) = answer {
        met.entries += answer.entries;
        met.lines += answer.lines;
    }
    let length = case.work_len.cmp(&WORK_WORDS);
    *met.lengths.entry((answer.is_ok(), length)).or_default() += 1;
}

/// What must have been met: everything that generated cases can bring about,
/// among it every op, gate, fault at every op that has it, end, kind of line,
/// refusal, the meetings of int, boolean and qubit, and the ways in which a
/// stored holder comes about.
fn all_met(met: &Totals) {
    assert_eq!(met.coverage.missing(), []);
    for stored in StoredHolder::ALL {
        assert!(met.coverage.count(Mark::Stored(stored)) > 100, "{stored:?}");
    }
    for op in 1..=23 {
        assert!(met.coverage.count(Mark::Op(op)) > 0, "op {op} was never executed");
    }
    for (accepted, length) in [(true, -1), (false, 0), (true, 0), (false, 1), (true, 1), (false, -1)] {
        let count = met.lengths.get(&(accepted, length.cmp(&0)));
        // A store of too few words is never accepted.
        assert_eq!(count.is_some(), !(accepted && length < 0), "{:?}", met.lengths);
    }
}

fn agree(numbers: Range<u64>) {
    let count = numbers.end - numbers.start;
    let mut met = Totals::default();
    let (first, begun) = (numbers.start, Instant::now());
    for number in numbers {
        compare(number, &input(number), &mut met);
        progress(number - first + 1, count, begun);
    }
    all_met(&met);
    println!("{count} inputs, {} entries, {} lines", met.entries, met.lines);
    for (mark, count) in met.coverage.counts() {
        println!("{count:10} {mark:?}");
    }
}

/// Says how far many inputs have come, a hundred times in all.
fn progress(done: u64, count: u64, begun: Instant) {
    if count > 100_000 && done.is_multiple_of(count / 100) {
        let left = begun.elapsed().as_secs_f64() * (count - done) as f64 / done as f64;
        eprintln!("{done} of {count} inputs, {left:.0} s left");
    }
}

#[test]
fn twenty_thousand_agree() {
    agree(0..20_000);
}

/// Some minutes, so by hand.
#[test]
#[ignore]
fn a_million_agree() {
    agree(1_000_000..2_000_000);
}
