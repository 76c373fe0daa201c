//! The tokens of a text.

/// What a token is.
#[derive(Clone, Copy, Debug, PartialEq, Eq)]
pub enum Kind {
    /// A word that is not reserved.
    Name,
    /// A word that is.
    Reserved,
    /// Digits, "leading zeros allowed, any length, no sign" (readings, 2).
    Number,
    Mark,
    /// A byte that belongs to no token; it "can follow nothing" (readings, 2).
    Bad,
    /// The text's end, at its length in bytes.
    End,
}

/// A token: where it starts, and its bytes.
#[derive(Clone, Copy, Debug, PartialEq, Eq)]
pub struct Token<'t> {
    pub at: usize,
    pub kind: Kind,
    pub bytes: &'t [u8],
}

impl Token<'_> {
    /// Whether it is this mark, this reserved word or this name.
    pub fn is(self, wanted: &str) -> bool {
        self.bytes == wanted.as_bytes() && !matches!(self.kind, Kind::Bad | Kind::End)
    }
}

/// The reserved words (readings, 1). "main, StdBasis, the gates' names, qtrit"
/// are not among them.
pub const RESERVED: [&str; 19] = [
    "void",
    "int",
    "boolean",
    "qbit",
    "channel",
    "channelEnd",
    "withends",
    "aliasfor",
    "new",
    "measure",
    "fork",
    "return",
    "if",
    "else",
    "while",
    "recv",
    "send",
    "true",
    "false",
];

/// The marks (readings, 2); a longer one stands before its own beginning.
pub const MARKS: [&str; 13] = ["(", ")", "{", "}", "[", "]", ",", ";", "+", "-", "==", "=", "<"];

/// The operators: "+ and - as operators, ==, <".
pub const OPERATORS: [&str; 4] = ["+", "-", "==", "<"];

/// "White space: bytes 32, 9, 10, 13." (readings, 1)
fn is_space(byte: u8) -> bool {
    matches!(byte, 32 | 9 | 10 | 13)
}

fn starts_word(byte: u8) -> bool {
    byte.is_ascii_alphabetic() || byte == b'_'
}

fn goes_on_word(byte: u8) -> bool {
    starts_word(byte) || byte.is_ascii_digit()
}

/// All tokens of a text, the end last.
pub fn tokens(text: &[u8]) -> Vec<Token<'_>> {
    let mut tokens = Vec::new();
    let mut at = 0;
    loop {
        let token = next(text, at);
        at = token.at + token.bytes.len();
        tokens.push(token);
        if token.kind == Kind::End {
            return tokens;
        }
    }
}

/// The first token at or after a place.
fn next(text: &[u8], from: usize) -> Token<'_> {
    let at = from + count(&text[from..], is_space);
    let rest = &text[at..];
    let (kind, length) = match rest.first() {
        None => (Kind::End, 0),
        Some(byte) if starts_word(*byte) => {
            let length = count(rest, goes_on_word);
            (word_kind(&rest[..length]), length)
        }
        Some(byte) if byte.is_ascii_digit() => (Kind::Number, count(rest, |byte| byte.is_ascii_digit())),
        Some(_) => match MARKS.iter().find(|mark| rest.starts_with(mark.as_bytes())) {
            Some(mark) => (Kind::Mark, mark.len()),
            None => (Kind::Bad, 1),
        },
    };
    Token { at, kind, bytes: &rest[..length] }
}

fn word_kind(word: &[u8]) -> Kind {
    match RESERVED.iter().any(|reserved| reserved.as_bytes() == word) {
        true => Kind::Reserved,
        false => Kind::Name,
    }
}

/// How many bytes at the beginning are of a sort.
fn count(bytes: &[u8], is: impl Fn(u8) -> bool) -> usize {
    bytes.iter().take_while(|byte| is(**byte)).count()
}
