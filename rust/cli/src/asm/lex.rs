//! A text's lines as tokens. A line is the unit of the text form, so tokens
//! stay grouped by lines; comments and blank lines fall away here.

use crate::error::{Error, Place};

#[derive(Clone, Copy, Debug, PartialEq, Eq)]
pub enum Kind {
    /// A letter or `_`, then letters, digits and `_`.
    Word,
    /// Digits, perhaps after a minus sign.
    Number,
    /// One of `( ) , : * -`.
    Mark,
}

#[derive(Clone, Copy, Debug)]
pub struct Token<'t> {
    pub kind: Kind,
    pub text: &'t str,
    pub place: Place,
}

/// A line with at least one token.
#[derive(Clone, Debug)]
pub struct Line<'t> {
    pub tokens: Vec<Token<'t>>,
    /// Right after the last token.
    pub end: Place,
}

/// The bytes of a file as text.
pub fn text(bytes: &[u8]) -> Result<&str, Error> {
    std::str::from_utf8(bytes).map_err(|error| {
        let before = String::from_utf8_lossy(&bytes[..error.valid_up_to()]);
        let place = Place {
            line: before.matches('\n').count() + 1,
            column: before.chars().rev().take_while(|c| *c != '\n').count() + 1,
        };
        Error::at(place, "expected text in UTF-8, found another byte")
    })
}

/// The lines that have tokens.
pub fn lines(text: &str) -> Result<Vec<Line<'_>>, Error> {
    let lines = text.lines().zip(1..);
    let lines = lines.map(|(line, number)| read_line(line, number));
    let is_blank = |line: &Result<Line, Error>| matches!(line, Ok(line) if line.tokens.is_empty());
    lines.filter(|line| !is_blank(line)).collect()
}

/// Everything from `#` on is a comment. What stands before is ASCII, or an
/// error, so that a byte's index gives its column.
fn read_line(line: &str, number: usize) -> Result<Line<'_>, Error> {
    let code = line.split('#').next().unwrap_or_default().trim_end();
    let place = |index| Place { line: number, column: index + 1 };
    let mut tokens = Vec::new();
    let mut index = 0;
    while index < code.len() {
        let rest = &code[index..];
        if rest.starts_with([' ', '\t']) {
            index += 1;
            continue;
        }
        let (kind, length) = measure(rest).map_err(|message| Error::at(place(index), message))?;
        let text = &rest[..length];
        let place = place(index);
        tokens.push(Token { kind, text, place });
        index += length;
    }
    let end = place(index);
    Ok(Line { tokens, end })
}

/// Kind and length of the token that the rest of a line starts with.
fn measure(rest: &str) -> Result<(Kind, usize), String> {
    let sign = usize::from(rest.starts_with('-'));
    let digits = run_length(&rest[sign..], |c| c.is_ascii_digit());
    if digits > 0 {
        return match run_length(&rest[sign..], is_word) {
            length if length == digits => Ok((Kind::Number, sign + digits)),
            length => {
                let found = &rest[..sign + length];
                Err(format!("expected a number or a name, found `{found}`"))
            }
        };
    }
    if rest.starts_with(['(', ')', ',', ':', '*', '-']) {
        return Ok((Kind::Mark, 1));
    }
    match run_length(rest, is_word) {
        0 => {
            let found = rest.chars().next().unwrap_or_default();
            Err(format!("expected a name, a number or one of ( ) , : * -, found {found:?}"))
        }
        length => Ok((Kind::Word, length)),
    }
}

fn is_word(c: char) -> bool {
    c.is_ascii_alphanumeric() || c == '_'
}

/// How many characters at the start are of a sort; all such are ASCII.
fn run_length(text: &str, sort: fn(char) -> bool) -> usize {
    text.chars().take_while(|c| sort(*c)).count()
}
