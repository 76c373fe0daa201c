//! The tokens of a LanQ text, as docs/TEXT.md has them.

/// What a token is.
#[derive(Clone, Copy, Debug, PartialEq, Eq)]
pub enum Kind {
    /// A word that is not reserved.
    Name,
    Reserved,
    Number,
    Mark,
    /// A byte that is in no text of the grammar.
    Other,
}

/// A token, with the index of its first byte.
#[derive(Clone, Copy, Debug, PartialEq, Eq)]
pub struct Token<'t> {
    pub at: usize,
    pub kind: Kind,
    pub bytes: &'t [u8],
}

pub const RESERVED: [&str; 19] = [
    "void",
    "int",
    "boolean",
    "qbit",
    "channel",
    "channelEnd",
    "withends",
    "aliasfor",
    "new",
    "measure",
    "fork",
    "return",
    "if",
    "else",
    "while",
    "recv",
    "send",
    "true",
    "false",
];

/// A mark stands before every other that starts with it.
pub const MARKS: [&str; 13] = ["(", ")", "{", "}", "[", "]", ",", ";", "+", "-", "==", "=", "<"];

/// The words that a type of a variable starts with.
pub const TYPES: [&str; 5] = ["int", "boolean", "qbit", "channel", "channelEnd"];

impl Token<'_> {
    /// Whether it is this word or mark.
    pub fn is(self, wanted: &str) -> bool {
        self.bytes == wanted.as_bytes()
    }

    /// Whether it is one of these.
    pub fn is_one_of(self, wanted: &[&str]) -> bool {
        wanted.iter().any(|one| self.is(one))
    }

    /// Where the next byte is.
    pub fn end(self) -> usize {
        self.at + self.bytes.len()
    }

    /// It as text; names and marks are ASCII.
    pub fn text(self) -> String {
        String::from_utf8_lossy(self.bytes).into_owned()
    }
}

/// All tokens of a text.
pub fn tokens(text: &[u8]) -> Vec<Token<'_>> {
    let mut tokens = Vec::new();
    let mut at = 0;
    while let Some(byte) = text.get(at) {
        if matches!(byte, b' ' | b'\t' | b'\n' | b'\r') {
            at += 1;
            continue;
        }
        let (kind, length) = first(&text[at..]);
        let bytes = &text[at..at + length];
        tokens.push(Token { at, kind, bytes });
        at += length;
    }
    tokens
}

/// Kind and length of the token that bytes start with.
fn first(bytes: &[u8]) -> (Kind, usize) {
    let many = |is: fn(&u8) -> bool| bytes.iter().take_while(|byte| is(byte)).count();
    let is_letter = |byte: u8| byte.is_ascii_alphabetic() || byte == b'_';
    match bytes[0] {
        byte if is_letter(byte) => {
            let length = many(|byte| byte.is_ascii_alphanumeric() || *byte == b'_');
            let is_reserved = RESERVED.iter().any(|word| word.as_bytes() == &bytes[..length]);
            (if is_reserved { Kind::Reserved } else { Kind::Name }, length)
        }
        byte if byte.is_ascii_digit() => (Kind::Number, many(u8::is_ascii_digit)),
        _ => match MARKS.iter().find(|mark| bytes.starts_with(mark.as_bytes())) {
            Some(mark) => (Kind::Mark, mark.len()),
            None => (Kind::Other, 1),
        },
    }
}
