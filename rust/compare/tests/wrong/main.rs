//! The comparison is shown to work: machines that are wrong in one rule each,
//! and every one of them is told apart from the model on the inputs on which
//! the gate compares the library with it.
//!
//!     cargo test --offline -p compare --test wrong -- --nocapture

mod answers;
mod before;
mod entries;
mod faults;
mod giving;
mod holders;
mod look_ups;
mod meetings;
mod no_click;
mod ops;
mod questions;
mod rules;
mod same_lines;
mod texts;

use compare::inputs::{input, shortest};
use compare::result::{by_library, by_model, difference, Buffers, RunResult};
use generate::{Case, Random};
use rules::{left, Rules, RIGHT};

/// What is wrong, with its rules.
type Wrong = (&'static str, Rules);

fn all() -> Vec<Wrong> {
    let mut all = Vec::new();
    all.extend(questions::WRONG);
    all.extend(entries::WRONG);
    all.extend(meetings::WRONG);
    all.extend(faults::WRONG);
    all.extend(giving::WRONG);
    all.extend(ops::WRONG);
    all.extend(no_click::WRONG);
    all.extend(answers::WRONG);
    all.extend(holders::WRONG);
    all
}

/// As many as the gate compares.
const INPUTS: u64 = 20_000;

/// What the model leaves.
fn right(case: &Case, buffers: Buffers) -> RunResult {
    let ran = model::check_and_run(&case.program, &case.schedule, &case.outcomes, case.trace_len, case.work_len);
    by_model(&ran, buffers)
}

#[test]
fn every_wrong_machine_is_told_apart() {
    let mut hidden = all();
    let count = hidden.len();
    for number in 0..INPUTS {
        if hidden.is_empty() {
            break;
        }
        let case = input(number);
        let buffers = Buffers::dirty(&case, &mut Random::new(number));
        let right = right(&case, buffers.clone());
        hidden.retain(|(name, rules)| {
            let differs = difference(&left(rules, &case, buffers.clone()), &right);
            if let Some(difference) = &differs {
                let difference: String = difference.chars().take(90).collect();
                println!("input {number:5}: {name}: {difference}");
            }
            differs.is_none()
        });
    }
    let names: Vec<&str> = hidden.iter().map(|(name, _)| *name).collect();
    assert!(names.is_empty(), "not told apart: {names:?}");
    println!("{count} wrong machines told apart");
    assert!(count >= 20);
}

/// How the model and a machine of these rules differ on a case.
fn differs(rules: &Rules, case: &Case) -> Option<String> {
    let buffers = Buffers::dirty(case, &mut Random::new(1));
    difference(&left(rules, case, buffers.clone()), &right(case, buffers))
}

/// The rules themselves add no difference.
#[test]
fn the_right_rules_are_the_model() {
    for number in 0..2_000 {
        assert_eq!(differs(&RIGHT, &input(number)), None, "input {number}");
    }
}

/// A failing comparison prints its input with no more entries than it takes.
#[test]
fn a_difference_is_shown_small() {
    let rules = Rules { idle: |_| (), ..RIGHT };
    let case = (0..).map(input).find(|case| differs(&rules, case).is_some());
    let case = case.expect("an input with an idle entry");
    let small = shortest(&case, |case| differs(&rules, case).is_some());
    let without_last = Case { schedule: small.schedule[..small.schedule.len() - 1].to_vec(), ..small.clone() };
    assert!(differs(&rules, &small).is_some() && differs(&rules, &without_last).is_none());
}

/// On inputs that a paper does not touch, the library is the machine that was
/// before it; the model is another one on some that it does touch.
#[test]
fn what_a_paper_does_not_touch_is_as_it_was() {
    for before in before::ALL {
        let (mut untouched, mut changed) = (0, 0);
        for number in 0..4_000 {
            let case = input(number);
            if (before.touches)(&case) {
                changed += usize::from(differs(&before.rules, &case).is_some());
                continue;
            }
            let buffers = Buffers::dirty(&case, &mut Random::new(number));
            let old = left(&before.rules, &case, buffers.clone());
            let difference = difference(&by_library(&case, buffers), &old);
            assert_eq!(difference, None, "before paper {}, input {number}", before.paper);
            untouched += 1;
        }
        println!("paper {}: {untouched} inputs as they were, {changed} changed", before.paper);
        assert!(untouched > 500 && changed > 50, "paper {}: {untouched}, {changed}", before.paper);
    }
}
