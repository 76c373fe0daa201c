//! Prints what the first cases bring about: how often each mark was seen, and
//! what is missing. The number of cases may be given.

use generate::{case, observe, Coverage};

fn main() {
    let given = std::env::args().nth(1);
    let cases: u64 = given.and_then(|text| text.parse().ok()).unwrap_or(5_000);
    let mut coverage = Coverage::new();
    for seed in 0..cases {
        if let Err(why) = observe(&case(seed), &mut coverage) {
            println!("seed {seed}: {why}");
        }
    }
    for (mark, count) in coverage.counts() {
        println!("{count:8} {mark:?}");
    }
    println!("missing: {:?}", coverage.missing());
}
