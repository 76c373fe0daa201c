//! Tables to check. Nothing is run.

use std::hint::black_box;
use std::time::Instant;

use data::WORK_WORDS;

/// A program table to check, of this many instructions.
pub struct Check {
    pub name: &'static str,
    program: Vec<u16>,
    pub instructions: usize,
}

/// INT, INT, ADD, PUT, GET, LESS, JFALSE and JUMP to the block's start, again
/// and again: pending values, slots and two jumps in eight instructions.
fn block(start: u16) -> [u16; 16] {
    [1, 7, 1, 9, 19, 0, 4, 0, 3, 0, 22, 0, 18, start, 17, start]
}

/// Methods of equal length, each with an int and a boolean slot.
fn table(methods: u16, length: u16) -> Vec<u16> {
    let mut words = vec![methods, methods * length];
    for m in 0..methods {
        words.extend([m * length, length]);
    }
    for _ in 0..methods {
        words.extend([0, 0, 1, 2]);
        words.extend([0; 14]);
    }
    for _ in 0..methods {
        for i in 0..length / 8 {
            words.extend(block(8 * i));
        }
    }
    words
}

fn named(name: &'static str, methods: u16, length: u16) -> Check {
    Check { name, program: table(methods, length), instructions: methods as usize * length as usize }
}

pub fn all() -> Vec<Check> {
    vec![named("check-one-method", 1, 4096), named("check-32-methods", 32, 128)]
}

/// Tables of four sizes.
pub fn growing() -> Vec<Check> {
    vec![
        named("check-512", 4, 128),
        named("check-1024", 8, 128),
        named("check-2048", 16, 128),
        named("check-4096", 32, 128),
    ]
}

impl Check {
    /// Nanoseconds per instruction of so many calls.
    pub fn timed(&self, calls: usize) -> f64 {
        let start = Instant::now();
        for _ in 0..calls {
            let answer = lanq::check_in(black_box(&self.program), &[], &[], WORK_WORDS);
            assert!(answer.is_ok(), "{} is refused", self.name);
        }
        start.elapsed().as_nanos() as f64 / (calls * self.instructions) as f64
    }
}
