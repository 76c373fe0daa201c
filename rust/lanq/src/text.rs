//! LanQ texts: the table of a text, and its run.

use data::{Answer, Refusal};

use crate::program::Program;
use crate::raw;
use crate::run::{answered, count, refused};

/// The words of the longest table, of 32 methods and 4,096 instructions: a
/// buffer of so many holds every one.
pub const MOST_TABLE_WORDS: usize = 2 + 20 * 32 + 2 * 4_096;

/// What a text is answered.
#[derive(Clone, Copy, Debug, PartialEq, Eq)]
pub enum Translation {
    /// By 30, 31 or 32; the place is a byte's index. The buffer is as it was.
    Refused(Refusal),
    /// The table stands in so many words at the start of the buffer; the words
    /// after them are as they were.
    Table(usize),
    /// The table has so many words, more than the buffer, which is as it was.
    Short(usize),
}

/// Translates a text into a buffer that is lent.
///
/// ```
/// use lanq::{translate, Question, Refusal, Translation};
///
/// let text = b"void main() { qbit q; q = new qbit(); H(q); }";
/// let mut table = [7; 50];
/// assert_eq!(translate(text, &mut table), Translation::Table(34));
/// assert_eq!(table[..4], [1, 6, 0, 6]); // one method, of six instructions
/// assert_eq!(table[22..34], [7, 0, 4, 0, 5, 0, 3, 0, 10, 4, 13, 0]);
/// assert_eq!(table[34..], [7; 16]); // kept
///
/// // A buffer of one word too few.
/// assert_eq!(translate(text, &mut table[..33]), Translation::Short(34));
///
/// // There is no name r: 31, at byte 40.
/// let text = b"void main() { qbit q; q = new qbit(); H(r); }";
/// let refusal = Refusal::new(Question::Names, 40);
/// assert_eq!(translate(text, &mut table), Translation::Refused(refusal));
/// assert_eq!(refusal.to_string(), "refused 31 40");
/// ```
pub fn translate(text: &[u8], table: &mut [u16]) -> Translation {
    // SAFETY: each pointer is good for its length as long as its slice is
    // borrowed, which is longer than the call. The buffer is borrowed for this
    // call alone, so it does not overlap the text.
    let answer = unsafe { raw::lanq_translate(text.as_ptr(), text.len(), table.as_mut_ptr(), table.len()) };
    let words = count(answer.words);
    match refused(answer.refused, answer.place) {
        Some(refusal) => Translation::Refused(refusal),
        None if words <= table.len() => Translation::Table(words),
        None => Translation::Short(words),
    }
}

/// Runs a text in buffers that are lent, whatever they held before: what
/// [`run_in`](crate::run_in) does with the text's table. 30, 31 and 32 are put
/// before question 1. After a refusal every word of the buffers is as it was.
///
/// ```
/// use lanq::{lines, run_text, Answer, End, Question, Refusal};
///
/// let text = b"void main() { measure(StdBasis, fresh()); } qbit fresh() { return new qbit(); }";
/// let mut trace = [7; 20];
/// let mut work = vec![7; lanq::WORK_WORDS];
///
/// // measure takes a name: 30, at the bracket after `fresh`.
/// let refusal = run_text(text, &[0; 9], &[1], &mut trace, &mut work).unwrap_err();
/// assert_eq!(refusal, Refusal::new(Question::Grammar, 37));
/// assert_eq!(trace, [7; 20]);
///
/// let text = b"void main() { qbit q; q = fresh(); measure(StdBasis, q); } qbit fresh() { return new qbit(); }";
/// let answer = run_text(text, &[0; 9], &[1], &mut trace, &mut work).unwrap();
/// assert_eq!(answer, Answer { end: End::AllOver, entries: 9, lines: 3, outcomes: 1 });
/// assert_eq!(lines(&trace)[1].to_string(), "6 0 4 0 1 -"); // measured 1
/// assert_eq!(trace[18..], [7, 7]); // kept
///
/// // The outcomes are asked after the text.
/// let refusal = run_text(text, &[0; 9], &[3], &mut trace, &mut work).unwrap_err();
/// assert_eq!(refusal, Refusal::new(Question::Outcomes, 0));
/// ```
pub fn run_text(
    text: &[u8],
    schedule: &[u8],
    outcomes: &[u8],
    trace: &mut [u16],
    work: &mut [u32],
) -> Result<Answer, Refusal> {
    // SAFETY: each pointer is good for its length as long as its slice is
    // borrowed, which is longer than the call. Trace and work store are borrowed
    // for this call alone, so they overlap neither each other nor an input.
    let answer = unsafe {
        raw::lanq_run_text(
            text.as_ptr(),
            text.len(),
            schedule.as_ptr(),
            schedule.len(),
            outcomes.as_ptr(),
            outcomes.len(),
            trace.as_mut_ptr(),
            trace.len(),
            work.as_mut_ptr(),
            work.len(),
        )
    };
    answered(&answer)
}

impl Program {
    /// The table of a text.
    ///
    /// ```
    /// use lanq::{Program, Question};
    ///
    /// let program = Program::from_text(b"void main() { }").unwrap();
    /// assert_eq!(program.words().len(), 24);
    /// let refusal = Program::from_text(b"void main() {").unwrap_err();
    /// assert_eq!((refusal.question, refusal.place), (Question::Grammar, 13));
    /// ```
    pub fn from_text(text: &[u8]) -> Result<Program, Refusal> {
        let mut words = vec![0; MOST_TABLE_WORDS];
        match translate(text, &mut words) {
            Translation::Refused(refusal) => Err(refusal),
            Translation::Table(length) => {
                words.truncate(length);
                Ok(Program::from(words))
            }
            Translation::Short(length) => panic!("the library answered a table of {length} words"),
        }
    }
}
