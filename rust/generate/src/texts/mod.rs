//! LanQ texts (Paper 1): about half of them valid, half damaged or past a limit,
//! each with a schedule and outcomes for its run.

mod body;
mod coverage;
mod damage;
mod expression;
mod limits;
mod mark;
mod passed;
mod program;
mod scan;
mod sizes;
mod stations;
mod words;

pub use coverage::{observe_text, TextCoverage};
pub use mark::TextMark;

use data::WORK_WORDS;
use model::check::check;
use model::text::translate;

use crate::random::Random;
use crate::{outcomes, schedule, trace_len};

/// The inputs of one comparison.
#[derive(Clone, Debug, PartialEq, Eq)]
pub struct TextCase {
    pub text: Vec<u8>,
    pub schedule: Vec<u8>,
    pub outcomes: Vec<u8>,
    /// Words of the lent trace.
    pub trace_len: usize,
}

/// The case of a seed.
pub fn text_case(seed: u64) -> TextCase {
    let mut random = Random::new(seed);
    let text = text(&mut random);
    let Ok(table) = translate(&text) else {
        return TextCase { text, schedule: vec![0; 4], outcomes: vec![], trace_len: 600 };
    };
    let program = check(&table, &[], &[], WORK_WORDS).expect("a table that is given out passes");
    let outcomes = outcomes(&mut random);
    let most = random.pick(&[3, 40, 150, 150, 300]);
    let schedule = schedule::schedule(&program, &outcomes, most, &mut random);
    let trace_len = trace_len(&program, &schedule, &outcomes, &mut random);
    TextCase { text, schedule, outcomes, trace_len }
}

/// The text alone.
fn text(random: &mut Random) -> Vec<u8> {
    let mut tokens = match random.weighted(&[38, 28, 14, 18, 2]) {
        0 => program::program(random),
        1 => stations::stations(random),
        2 => limits::limits(random),
        3 => return words::bytes(&passed::passed(random), random),
        _ => return noise(random),
    };
    if random.chance(38) {
        damage::damage(&mut tokens, random);
    }
    let mut bytes = words::bytes(&tokens, random);
    if random.chance(4) {
        damage::damage_bytes(&mut bytes, random);
    }
    bytes
}

/// Any bytes, or tokens in any order.
fn noise(random: &mut Random) -> Vec<u8> {
    let count = random.below(60);
    match random.chance(30) {
        true => (0..count).map(|_| random.byte()).collect(),
        false => {
            let tokens: Vec<String> = (0..count).map(|_| words::any_token(random)).collect();
            words::bytes(&tokens, random)
        }
    }
}
