//! Tokens of texts, and the white space between them.

use model::text::token::{MARKS, RESERVED};

use crate::random::Random;

/// The types of a value, by 01's numbers.
pub const KINDS: [u16; 9] = [1, 2, 3, 17, 18, 19, 33, 34, 35];

/// Gates of one qubit, and of two.
pub const SINGLE: [&str; 5] = ["X", "Y", "Z", "H", "S"];
pub const DOUBLE: [&str; 3] = ["CX", "CZ", "SWAP"];

/// Names of variables; few, so that blocks declare them anew.
pub const VARIABLES: [&str; 24] = [
    "a", "b", "c", "d", "e", "q", "r", "x", "y", "i", "n", "_t", "q0", "main", "X", "StdBasis", "qtrit", "T", "ab",
    "half", "int_", "f1", "Z9", "__",
];

/// A type's tokens.
pub fn type_tokens(kind: u16) -> Vec<String> {
    let words: &[&str] = match kind {
        0 => &["void"],
        1 => &["int"],
        2 => &["boolean"],
        3 => &["qbit"],
        17 => &["channel", "[", "int", "]"],
        18 => &["channel", "[", "boolean", "]"],
        19 => &["channel", "[", "qbit", "]"],
        33 => &["channelEnd", "[", "int", "]"],
        34 => &["channelEnd", "[", "boolean", "]"],
        _ => &["channelEnd", "[", "qbit", "]"],
    };
    tokens(words)
}

pub fn tokens(words: &[&str]) -> Vec<String> {
    words.iter().map(|word| word.to_string()).collect()
}

/// A passage written as text, taken apart at its blanks.
pub fn split(text: &str) -> Vec<String> {
    text.split_whitespace().map(str::to_string).collect()
}

/// Any token at all, now and then one that no text has.
pub fn any_token(random: &mut Random) -> String {
    match random.below(12) {
        0..=3 => random.pick(&MARKS).to_string(),
        4..=6 => random.pick(&RESERVED).to_string(),
        7..=9 => random.pick(&VARIABLES).to_string(),
        10 => random.pick(&["0", "1", "32767", "32768", "007", "99999999999999999999"]).to_string(),
        _ => random.pick(&["@", "*", "#", "!", ".", "&", "\"", "/", "\u{3c8}"]).to_string(),
    }
}

/// The bytes of tokens. White space stands where two would grow together, and
/// elsewhere as it comes.
pub fn bytes(tokens: &[String], random: &mut Random) -> Vec<u8> {
    let often = random.pick(&[0, 20, 60, 100]);
    let mut out = Vec::new();
    for (index, token) in tokens.iter().enumerate() {
        let before = index.checked_sub(1).and_then(|before| tokens[before].bytes().last());
        let together = before.is_some_and(|before| grows(before, token.as_bytes()[0]));
        if together || random.chance(often) {
            out.extend(space(random));
        }
        out.extend(token.bytes());
    }
    if random.chance(30) {
        out.extend(space(random));
    }
    out
}

fn grows(before: u8, next: u8) -> bool {
    let word = |byte: u8| byte.is_ascii_alphanumeric() || byte == b'_';
    (word(before) && word(next)) || (before == b'=' && next == b'=')
}

fn space(random: &mut Random) -> Vec<u8> {
    let count = random.pick(&[1, 1, 1, 2, 3]);
    (0..count).map(|_| random.pick(b"    \n\n\t\r")).collect()
}
