//! The look-ups and the same-lines answers that are compared.

/// How many traces of no run are looked up in.
pub const TRACES: u64 = 400;
/// How many pairs of traces are compared.
pub const PAIRS: u64 = 20_000;

/// Numbers of lines, more than there are too, of a long trace only some in the
/// middle; and every small qubit number and the largest one.
pub fn asked(trace: &[u16]) -> impl Iterator<Item = (usize, u16)> {
    let lines = trace.len() / 6;
    let numbers_of_lines = (0..=lines + 1).filter(move |k| *k < 40 || *k + 40 > lines || k % 100 == 0);
    numbers_of_lines.chain([usize::MAX]).flat_map(|k| (0..33).chain([65535]).map(move |qubit| (k, qubit)))
}
