//! Reading along one line, token by token.

use crate::asm::lex::{Kind, Line, Token};
use crate::error::{Error, Place};

/// Some text of a line with its place: a word, a number, or a word with
/// something in parentheses, written without blanks.
#[derive(Clone, Debug, PartialEq, Eq)]
pub struct Phrase {
    pub text: String,
    pub place: Place,
}

#[derive(Debug)]
pub struct Cursor<'l, 't> {
    line: &'l Line<'t>,
    index: usize,
}

impl<'l, 't> Cursor<'l, 't> {
    pub fn new(line: &'l Line<'t>) -> Cursor<'l, 't> {
        Cursor { line, index: 0 }
    }

    /// The next token, where there is one.
    pub fn peek(&self) -> Option<Token<'t>> {
        self.line.tokens.get(self.index).copied()
    }

    /// Where the next token stands, or the line's end.
    pub fn place(&self) -> Place {
        self.peek().map_or(self.line.end, |token| token.place)
    }

    /// The word that comes next, unless it is a label.
    pub fn keyword(&self) -> Option<&'t str> {
        let word = self.peek().filter(|token| token.kind == Kind::Word);
        word.filter(|_| !self.at_label()).map(|token| token.text)
    }

    /// Whether a word with a colon after it comes next.
    pub fn at_label(&self) -> bool {
        let mut ahead = self.line.tokens[self.index..].iter();
        let word = ahead.next().is_some_and(|token| token.kind == Kind::Word);
        word && ahead.next().is_some_and(|token| token.text == ":")
    }

    /// An error at the next token, or at the line's end.
    pub fn error(&self, what: &str) -> Error {
        match self.peek() {
            Some(token) => Error::expected(token.place, what, token.text),
            None => Error::at(self.line.end, format!("expected {what}, found the end of the line")),
        }
    }

    /// Takes a token of a kind.
    pub fn take(&mut self, kind: Kind, what: &str) -> Result<Token<'t>, Error> {
        let token = self.peek().filter(|token| token.kind == kind);
        let token = token.ok_or_else(|| self.error(what))?;
        self.index += 1;
        Ok(token)
    }

    /// Takes the mark if it comes next.
    pub fn skip(&mut self, mark: &str) -> bool {
        let found = self.peek().is_some_and(|token| token.text == mark);
        self.index += usize::from(found);
        found
    }

    /// Takes a mark that has to be there.
    pub fn mark(&mut self, mark: &str) -> Result<(), Error> {
        match self.skip(mark) {
            true => Ok(()),
            false => Err(self.error(&format!("`{mark}`"))),
        }
    }

    /// Takes a word or a number. Where `opens` says so, a word has another
    /// phrase in parentheses after it. Nothing nests deeper than three.
    pub fn phrase(&mut self, what: &str, opens: fn(&str) -> bool) -> Result<Phrase, Error> {
        self.nested_phrase(what, opens, 3)
    }

    fn nested_phrase(&mut self, what: &str, opens: fn(&str) -> bool, depth: usize) -> Result<Phrase, Error> {
        let token = self.peek().filter(|token| token.kind != Kind::Mark);
        let token = token.filter(|_| depth > 0);
        let token = token.ok_or_else(|| self.error(what))?;
        self.index += 1;
        let mut text = token.text.to_string();
        if opens(token.text) {
            self.mark("(")?;
            let inner = self.nested_phrase(what, opens, depth - 1)?;
            self.mark(")")?;
            text = format!("{text}({})", inner.text);
        }
        let place = token.place;
        Ok(Phrase { text, place })
    }

    /// Nothing may be left on the line.
    pub fn finish(&self) -> Result<(), Error> {
        match self.peek() {
            None => Ok(()),
            Some(_) => Err(self.error("the end of the line")),
        }
    }

    /// Whether nothing is left.
    pub fn at_end(&self) -> bool {
        self.peek().is_none()
    }
}
