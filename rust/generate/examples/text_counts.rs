//! Prints what the first texts bring about: how often each mark was seen, and what is
//! missing. The number of texts may be given; a further number prints one text.

use generate::{observe_text, text_case, TextCoverage};

fn main() {
    let number = |index: usize| std::env::args().nth(index).and_then(|text| text.parse::<u64>().ok());
    if let Some(seed) = number(2) {
        print!("{}", String::from_utf8_lossy(&text_case(seed).text));
        return;
    }
    let mut coverage = TextCoverage::new();
    for seed in 0..number(1).unwrap_or(4_000) {
        if let Err(why) = observe_text(&text_case(seed), &mut coverage) {
            println!("seed {seed}: {why}");
        }
    }
    for (mark, count) in coverage.counts() {
        println!("{count:8} {mark:?}");
    }
    println!("missing: {:?}", coverage.missing());
}
