//! What the look-up of a qubit's holder answers.

/// Who holds a qubit by the first lines of a trace, and what the answer took.
#[derive(Clone, Copy, Debug, PartialEq, Eq)]
pub struct LookUp {
    /// The holder; nobody is the number 65535.
    pub holder: Option<u16>,
    /// Paper 4: "it also answers how many lines it read, every one when none
    /// decides". The line that decides is one of them.
    pub read: usize,
}
