//! The look-up and the same-lines answer of the library and of the model, on
//! the traces of generated runs and on words of no run.

use std::cmp::Ordering;
use std::collections::BTreeMap;

use compare::traces::{asked, PAIRS, TRACES};
use data::LINE_WORDS;
use generate::{case, pair, trace, Difference, Random};
use model::lookup::{decided, look_up, same_lines, whole_lines};

/// How a look-up came to its answer.
#[derive(Clone, Copy, Debug, PartialEq, Eq, PartialOrd, Ord)]
enum LookUpCase {
    /// By a line of this kind, the last of the first k or an earlier one.
    By { kind: u16, last: bool },
    /// By a line that names 65535.
    ForNobody,
    /// By none, and there was one at least.
    Never,
    /// There was none to read.
    NoLine,
}

/// How often each was met, by how k stands to the number of lines.
#[derive(Default)]
struct Counts(BTreeMap<(LookUpCase, Ordering), u64>);

impl Counts {
    /// Looks up whatever is asked, on both sides.
    fn look_ups_agree(&mut self, trace: &[u16]) {
        let lines = whole_lines(trace);
        for (k, qubit) in asked(trace) {
            let model = look_up(trace, k, qubit);
            assert_eq!(lanq::holder(trace, k, qubit), model, "{trace:?}, {k}, {qubit}");
            let first = &lines[..k.min(lines.len())];
            let stopped = first.get(first.len() - model.read).filter(|line| decided(line, qubit).is_some());
            let how = match stopped {
                Some(_) if model.holder.is_none() => LookUpCase::ForNobody,
                Some(line) => LookUpCase::By { kind: line.kind, last: model.read == 1 },
                None if first.is_empty() => LookUpCase::NoLine,
                None => LookUpCase::Never,
            };
            *self.0.entry((how, k.cmp(&lines.len()))).or_default() += 1;
        }
    }

    fn count(&self, how: LookUpCase, k: Ordering) -> u64 {
        self.0.get(&(how, k)).copied().unwrap_or(0)
    }
}

/// Every way to an answer, with too few lines, just enough and too many asked
/// for.
fn ways() -> Vec<(LookUpCase, Ordering)> {
    let mut ways = vec![(LookUpCase::NoLine, Ordering::Less)];
    for k in [Ordering::Less, Ordering::Equal, Ordering::Greater] {
        ways.push((LookUpCase::Never, k));
        for kind in [1, 6] {
            ways.extend([false, true].map(|last| (LookUpCase::By { kind, last }, k)));
        }
    }
    ways
}

fn same_lines_agree(a: &[u16], b: &[u16]) -> bool {
    let model = same_lines(a, b);
    assert_eq!(lanq::same_lines(a, b), model, "{a:?}, {b:?}");
    model
}

#[test]
fn look_ups_agree_on_any_words() {
    let mut met = Counts::default();
    let mut parts = 0;
    for seed in 0..TRACES {
        let words = trace(seed);
        parts += usize::from(!words.len().is_multiple_of(LINE_WORDS));
        met.look_ups_agree(&words);
    }
    for (how, k) in ways().into_iter().chain([(LookUpCase::ForNobody, Ordering::Equal)]) {
        assert!(met.count(how, k) > 50, "{how:?}, {k:?}: {:?}", met.0);
    }
    assert!(parts > 100, "{parts} traces have a part of a line");
}

#[test]
fn look_ups_agree_on_runs() {
    let mut met = Counts::default();
    for seed in 0..400 {
        let case = case(seed);
        let run = model::check_and_run(&case.program, &case.schedule, &case.outcomes, case.trace_len, case.work_len);
        if let Ok(run) = run {
            met.look_ups_agree(&run.trace_words());
        }
    }
    for (how, k) in ways() {
        assert!(met.count(how, k) > 0, "{how:?}, {k:?}: {:?}", met.0);
    }
}

/// A trace against itself with one word changed, words cut off or words put on.
#[test]
fn same_lines_agree_on_any_words() {
    let mut random = Random::new(2);
    let mut answers = [0, 0];
    for seed in 0..20_000 {
        let a = trace(seed);
        let mut b = a.clone();
        match random.below(4) {
            0 if !b.is_empty() => b[random.below(a.len())] = random.pick(&[0, 1, 65535]),
            1 => b.truncate(random.below(a.len() + 1)),
            2 => b.extend(trace(!seed)),
            _ => (),
        }
        answers[usize::from(same_lines_agree(&a, &b))] += 1;
    }
    assert!(answers.iter().all(|&n| n > 1_000), "{answers:?}");
}

/// Pairs that differ in nothing, in a shift, in one gap, in its sign, in what
/// wrapping would hide, in a column or in a line; asked both ways.
#[test]
fn same_lines_agree_on_pairs() {
    let mut counts: BTreeMap<Difference, u64> = BTreeMap::new();
    for seed in 0..PAIRS {
        let pair = pair(seed);
        let same = same_lines_agree(&pair.first, &pair.second);
        assert_eq!(same_lines_agree(&pair.second, &pair.first), same);
        assert_eq!(same, pair.difference.is_same(), "{pair:?}");
        *counts.entry(pair.difference).or_default() += 1;
    }
    for difference in Difference::ALL {
        assert!(counts.get(&difference).is_some_and(|count| *count > 100), "{difference:?}: {counts:?}");
    }
}

/// A run's trace against itself in later entries, with an idle entry more at the
/// start or in the middle of the schedule.
#[test]
fn same_lines_agree_on_runs() {
    let mut answers = [0, 0];
    for seed in 0..400 {
        let case = case(seed);
        let lines = |schedule: &[u8]| {
            let run = model::check_and_run(&case.program, schedule, &case.outcomes, case.trace_len, case.work_len);
            run.map(|run| run.trace_words()).unwrap_or_default()
        };
        let before = lines(&case.schedule);
        for at in [0, case.schedule.len() / 2] {
            let mut idle = case.schedule.clone();
            idle.insert(at, 255);
            answers[usize::from(same_lines_agree(&before, &lines(&idle)))] += 1;
        }
    }
    assert!(answers.iter().all(|&n| n > 50), "{answers:?}");
}
