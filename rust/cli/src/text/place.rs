//! A byte's place in a text: line and column, and the line with a mark under it.

use std::fmt;

use crate::error::Place;

/// So many characters of a line are shown, and so many of them before the mark.
const WIDTH: usize = 100;
const BEFORE: usize = 70;

/// A place of a text.
#[derive(Clone, Debug, PartialEq, Eq)]
pub struct TextPlace {
    /// The byte's index.
    pub byte: usize,
    pub place: Place,
    /// The line, or a part of a long one.
    shown: String,
    /// How many characters of it stand before the byte.
    before: usize,
}

impl TextPlace {
    /// The place of a byte, or of the text's end.
    pub fn new(text: &[u8], byte: usize) -> TextPlace {
        let byte = byte.min(text.len());
        let start = text[..byte].iter().rposition(|byte| *byte == b'\n').map_or(0, |last| last + 1);
        let length = text[byte..].iter().position(|byte| *byte == b'\n');
        let end = length.map_or(text.len(), |length| byte + length);
        let line = 1 + text[..byte].iter().filter(|byte| **byte == b'\n').count();
        let before = characters(&text[start..byte]);
        let after = characters(&text[byte..end]);
        let column = before.len() + 1;
        let cut = before.len().saturating_sub(BEFORE);
        let whole = before.iter().chain(&after).skip(cut);
        let mut shown: String = whole.take(WIDTH).collect();
        if cut > 0 {
            shown = format!("...{shown}");
        }
        if before.len() + after.len() > cut + WIDTH {
            shown += "...";
        }
        let before = before.len() - cut + if cut > 0 { 3 } else { 0 };
        TextPlace { byte, place: Place { line, column }, shown: shown.trim_end().to_string(), before }
    }

    /// `line 3, column 7`
    pub fn words(&self) -> String {
        format!("line {}, column {}", self.place.line, self.place.column)
    }
}

/// Bytes as characters of one column each.
fn characters(bytes: &[u8]) -> Vec<char> {
    let text = String::from_utf8_lossy(bytes);
    text.chars().map(|one| if one.is_control() { ' ' } else { one }).collect()
}

/// Byte, line and column; then the line, and a mark under the byte.
impl fmt::Display for TextPlace {
    fn fmt(&self, f: &mut fmt::Formatter) -> fmt::Result {
        let TextPlace { byte, shown, before, .. } = self;
        writeln!(f, "byte {byte}, {}", self.words())?;
        writeln!(f, "        {shown}")?;
        write!(f, "        {:before$}^", "")
    }
}
