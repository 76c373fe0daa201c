//! Program tables.

use data::program::{table, Method};

use crate::reason::{methods, Reason};

/// A program table: its words, right or wrong. Whether it is a program the
/// questions say.
///
/// ```
/// use lanq::op::RET;
/// use lanq::{Method, Program};
///
/// // One method, main, that returns at once.
/// let main = Method { code: vec![(RET, 0)], ..Method::default() };
/// let program = Program::from_methods(&[main]);
/// assert_eq!(program.words().len(), 2 + 20 + 2);
/// assert_eq!(lanq::check(&program, &[], &[]), Ok(()));
/// ```
#[derive(Clone, Debug, PartialEq, Eq)]
pub struct Program {
    words: Vec<u16>,
}

impl Program {
    /// The table of these methods, main first.
    ///
    /// # Panics
    /// At more than 65,535 methods or instructions.
    pub fn from_methods(methods: &[Method]) -> Program {
        Program { words: table(methods) }
    }

    /// The table's words.
    pub fn words(&self) -> &[u16] {
        &self.words
    }

    /// The methods, as plain numbers. A table that question 1 or 2 refuses does
    /// not say where a method starts; the error is its reason.
    ///
    /// ```
    /// use lanq::op::RET;
    /// use lanq::{Method, Program};
    ///
    /// let main = Method { slots: vec![3; 16], code: vec![(RET, 0)], ..Method::default() };
    /// let program = Program::from_methods(&[main.clone()]);
    /// assert_eq!(program.methods(), Ok(vec![main]));
    ///
    /// let short = Program::from(&program.words()[1..]);
    /// let refusal = short.methods().unwrap_err();
    /// assert_eq!(refusal.to_string(), "refused 1 0: N, the number of instructions, is 0, not 1 to 4096");
    /// ```
    pub fn methods(&self) -> Result<Vec<Method>, Reason> {
        methods(&self.words)
    }
}

impl From<Vec<u16>> for Program {
    fn from(words: Vec<u16>) -> Program {
        Program { words }
    }
}

impl From<&[u16]> for Program {
    fn from(words: &[u16]) -> Program {
        Program { words: words.to_vec() }
    }
}
