//! The types by name.

use data::{CarriedType, Type};

/// The mark of a slot of type 0.
pub const UNUSED: &str = "-";
/// Stands before a number that is written as it is, listed or not.
pub const RAW: &str = "raw";

/// What may stand as a type, for messages.
pub const EXPECTED: &str = "a type (int, bool, qbit, channel(int), end(qbit) and so on)";

/// The word for a return type 0.
pub fn void() -> String {
    Type::None.to_string()
}

/// The types that a slot can have.
fn slot_types() -> impl Iterator<Item = Type> {
    let plain = [Type::Int, Type::Bool, Type::Qubit];
    let channels = CarriedType::ALL.map(Type::Channel);
    let ends = CarriedType::ALL.map(Type::End);
    plain.into_iter().chain(channels).chain(ends)
}

/// Whether parentheses follow this word.
pub fn opens(word: &str) -> bool {
    let opened = format!("{word}(");
    word == RAW || slot_types().any(|kind| kind.to_string().starts_with(&opened))
}

/// The number of a type written without blanks.
pub fn number(text: &str) -> Option<u16> {
    if let Some(raw) = text.strip_prefix(RAW).and_then(in_parentheses) {
        return raw.parse().ok();
    }
    slot_types().find(|kind| kind.to_string() == text).map(Type::number)
}

/// A type's name; the bare number where no slot has such a type.
pub fn name(number: u16) -> String {
    let kind = slot_types().find(|kind| kind.number() == number);
    kind.map_or_else(|| format!("{RAW}({number})"), |kind| kind.to_string())
}

fn in_parentheses(text: &str) -> Option<&str> {
    text.strip_prefix('(')?.strip_suffix(')')
}
