//! The check of the library and of the model on generated inputs. A refusal
//! number that no input brought about fails the test.

use std::collections::BTreeMap;

use compare::verdicts;
use generate::{case, Random};

/// How often each refusal number was met, 0 for acceptance.
#[derive(Default)]
struct Counts(BTreeMap<u16, u64>);

impl Counts {
    fn compare(&mut self, seed: u64, case: &generate::Case) {
        let (library, model) = verdicts(case);
        assert_eq!(library, model, "seed {seed}");
        *self.0.entry(library.map_or_else(|refusal| refusal.number(), |()| 0)).or_default() += 1;
    }

    fn all_numbers(&self) {
        for number in 0..=8 {
            assert!(self.0.contains_key(&number), "refusal {number} was never met: {:?}", self.0);
        }
    }
}

#[test]
fn generated_cases_agree() {
    let mut met = Counts::default();
    for seed in 0..12_000 {
        met.compare(seed, &case(seed));
    }
    met.all_numbers();
}

/// One word of a generated table changed, at a place and to a value of no
/// special kind: most of these are refused, by every question from 1 to 5.
#[test]
fn changed_words_agree() {
    let mut met = Counts::default();
    for seed in 0..8_000 {
        let mut case = case(seed);
        if case.program.is_empty() {
            continue;
        }
        let mut random = Random::new(seed);
        let at = random.below(case.program.len());
        case.program[at] = random.below(40) as u16;
        met.compare(seed, &case);
    }
    for number in 0..=5 {
        assert!(met.0.contains_key(&number), "refusal {number} was never met");
    }
}
