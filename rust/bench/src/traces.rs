//! Calls that read a trace. One call each: what is counted is the call alone.

use std::hint::black_box;

/// A call on a trace of any number of lines.
pub struct Call {
    pub name: &'static str,
    /// The function of the C interface that it calls.
    pub function: &'static str,
    /// The numbers of lines that are counted.
    pub lines: &'static [usize],
    call: fn(usize) -> String,
}

pub fn all() -> Vec<Call> {
    let same = |name, call| Call { name, function: "lanq_same_lines", lines: &[10_000], call };
    vec![
        Call { name: "look-up", function: "lanq_holder", lines: &[1, 60_000], call: last_line_decides },
        same("same-lines", |lines| same_lines(lines, |_| ())),
        same("other-column", |lines| same_lines(lines, |line| line[5] = 1)),
        same("other-gap", |lines| same_lines(lines, |line| line[0] += 1)),
    ]
}

impl Call {
    /// Builds the trace, calls, and says what was answered.
    pub fn once(&self, lines: usize) -> String {
        (self.call)(lines)
    }
}

/// Qubit 0 is given to process 1 in the last line; all others are gates on it.
fn last_line_decides(lines: usize) -> String {
    let mut trace = [0, 0, 3, 1, 0, 65_535].repeat(lines - 1);
    trace.extend([1, 0, 6, 1, 3, 0]);
    format!("{:?}", black_box(lanq::holder(black_box(&trace), lines, 0)))
}

/// A trace of gates in entries 0, 1, 2 and so on against one that is changed in
/// line 1, counted from 0.
fn same_lines(lines: usize, change: fn(&mut [u16])) -> String {
    let first: Vec<u16> = (0..lines).flat_map(|line| [line as u16, 0, 3, 1, 0, 65_535]).collect();
    let mut second = first.clone();
    second.chunks_exact_mut(6).skip(1).take(1).for_each(change);
    format!("{}", black_box(lanq::same_lines(black_box(&first), black_box(&second))))
}
