//! Traces: lines as words, words as lines, and what is asked of them.

use data::{Line, LookUp, Run, LINE_WORDS, UNUSED};

use crate::raw;
use crate::run::count;

/// A trace: lines, or any words. "Six words make a line, and a part of one at
/// the end is ignored."
pub trait Trace {
    /// The words.
    fn words(&self) -> &[u16];
}

impl Trace for [u16] {
    fn words(&self) -> &[u16] {
        self
    }
}

impl Trace for [Line] {
    fn words(&self) -> &[u16] {
        let length = LINE_WORDS * self.len();
        // SAFETY: a line is six words one after the other, without padding
        // (`repr(C)`), so the slice's memory is so many words, and a word's
        // alignment is a line's.
        unsafe { std::slice::from_raw_parts(self.as_ptr().cast::<u16>(), length) }
    }
}

impl<T, const N: usize> Trace for [T; N]
where
    [T]: Trace,
{
    fn words(&self) -> &[u16] {
        self.as_slice().words()
    }
}

impl<T> Trace for Vec<T>
where
    [T]: Trace,
{
    fn words(&self) -> &[u16] {
        self.as_slice().words()
    }
}

impl Trace for Run {
    fn words(&self) -> &[u16] {
        self.lines.words()
    }
}

/// The whole lines of any words.
///
/// ```
/// use lanq::{lines, Event};
///
/// // Process 2 makes qubit 0; three words after it are no line.
/// let words = [0, 2, 1, 0, 65535, 65535, 7, 7, 7];
/// let lines = lines(&words);
/// assert_eq!(lines.len(), 1);
/// assert_eq!(lines[0].event(), Some(Event::QubitMade { qubit: 0 }));
/// ```
pub fn lines(words: &[u16]) -> &[Line] {
    // SAFETY: a line is six words one after the other, without padding
    // (`repr(C)`), any words are a line, a line's alignment is a word's, and so
    // many lines end within the slice.
    unsafe { std::slice::from_raw_parts(words.as_ptr().cast::<Line>(), words.len() / LINE_WORDS) }
}

/// Who holds a qubit by the first `k` lines of a trace, all its lines if there
/// are fewer. They are read from the last one backwards, up to the line that
/// decides; `read` counts them.
///
/// ```
/// use lanq::{holder, LookUp};
///
/// // Process 2 makes qubit 0 and gives it to process 5, which makes qubit 3.
/// let trace = [[0, 2, 1, 0, 65535, 65535], [1, 2, 6, 5, 3, 0], [2, 5, 1, 3, 65535, 65535]].concat();
/// assert_eq!(holder(&trace, 1, 0), LookUp { holder: Some(2), read: 1 });
/// assert_eq!(holder(&trace, 3, 0), LookUp { holder: Some(5), read: 2 });
/// // No line decides: every one is read.
/// assert_eq!(holder(&trace, 9, 1), LookUp { holder: None, read: 3 });
/// ```
pub fn holder(trace: &(impl Trace + ?Sized), k: usize, qubit: u16) -> LookUp {
    let words = trace.words();
    // SAFETY: the pointer is good for its length as long as the slice is
    // borrowed, which is longer than the call. The function only reads it.
    let answer = unsafe { raw::lanq_holder(words.as_ptr(), words.len(), k, qubit) };
    let number = u16::try_from(answer.holder).expect("a process's number, or 65535");
    LookUp { holder: (number != UNUSED).then_some(number), read: count(answer.read) }
}

/// Whether two traces have the same lines, the entries' numbers left out, and
/// the same gaps between the entries of each line and the next. So a trace that
/// is shifted as a whole is the same.
///
/// ```
/// // Process 2 makes qubit 0 and gives it to process 5.
/// let trace = |made, given| [made, 2, 1, 0, 65535, 65535, given, 2, 6, 5, 3, 0];
/// assert!(lanq::same_lines(&trace(0, 3), &trace(40, 43)));
/// assert!(!lanq::same_lines(&trace(0, 3), &trace(0, 40)));
/// assert!(!lanq::same_lines(&trace(0, 3), lanq::lines(&[])));
/// ```
pub fn same_lines(a: &(impl Trace + ?Sized), b: &(impl Trace + ?Sized)) -> bool {
    let (a, b) = (a.words(), b.words());
    // SAFETY: each pointer is good for its length as long as its slice is
    // borrowed, which is longer than the call. The function only reads them.
    unsafe { raw::lanq_same_lines(a.as_ptr(), a.len(), b.as_ptr(), b.len()) }
}
