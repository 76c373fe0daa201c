//! Damage to a valid text: tokens dropped, doubled, exchanged; names, types and
//! counts changed; bytes changed.

use model::text::token::RESERVED;

use super::words::{any_token, VARIABLES};
use crate::random::Random;

/// Damages tokens once or twice.
pub fn damage(tokens: &mut Vec<String>, random: &mut Random) {
    for _ in 0..random.pick(&[1, 1, 1, 2]) {
        if !tokens.is_empty() {
            once(tokens, random);
        }
    }
}

fn once(tokens: &mut Vec<String>, random: &mut Random) {
    let place = random.below(tokens.len());
    match random.below(14) {
        0 => drop(tokens.remove(place)),
        1 => tokens.insert(place, tokens[place].clone()),
        2 => tokens.swap(place, random.below(place + 1)),
        3 => tokens.swap(place, place.saturating_sub(1)),
        4 => tokens[place] = any_token(random),
        5 => tokens.insert(place, any_token(random)),
        6 => tokens.truncate(place),
        7 | 8 => rename(tokens, random),
        9 | 10 => retype(tokens, random),
        11 => fewer(tokens, random),
        12 => more(tokens, random),
        _ => repeat(tokens, random),
    }
}

/// The places of tokens of a sort.
fn places(tokens: &[String], is: impl Fn(&str) -> bool) -> Vec<usize> {
    (0..tokens.len()).filter(|place| is(&tokens[*place])).collect()
}

fn is_name(token: &str) -> bool {
    let first = token.as_bytes()[0];
    (first.is_ascii_alphabetic() || first == b'_') && !RESERVED.contains(&token)
}

/// Another name in a name's place.
fn rename(tokens: &mut [String], random: &mut Random) {
    let names = places(tokens, is_name);
    if let Some(place) = random.pick_any(&names) {
        let other = random.pick_any(&names).map(|other| tokens[other].clone());
        tokens[place] = match (other, random.chance(50)) {
            (Some(other), true) => other,
            _ => random.pick(&VARIABLES).to_string(),
        };
    }
}

/// Another type's word, or another basis.
fn retype(tokens: &mut [String], random: &mut Random) {
    let types = ["int", "boolean", "qbit", "channel", "channelEnd", "void", "StdBasis"];
    let found = places(tokens, |token| types.contains(&token));
    if let Some(place) = random.pick_any(&found) {
        tokens[place] = match tokens[place] == "StdBasis" {
            true => "BellBasis".to_string(),
            false => random.pick(&types).to_string(),
        };
    }
}

/// One argument or name less: a comma and what stands after it.
fn fewer(tokens: &mut Vec<String>, random: &mut Random) {
    let commas = places(tokens, |token| token == ",");
    if let Some(place) = random.pick_any(&commas) {
        tokens.drain(place..(place + 2).min(tokens.len()));
    }
}

/// One argument or name more, after an opening bracket.
fn more(tokens: &mut Vec<String>, random: &mut Random) {
    let brackets = places(tokens, |token| token == "(");
    if let Some(place) = random.pick_any(&brackets) {
        let extra = random.pick(&["1", "true", "a", "q"]);
        tokens.splice(place + 1..place + 1, [extra.to_string(), ",".to_string()]);
    }
}

/// A passage written a second time: a declaration, a statement or a whole method.
fn repeat(tokens: &mut Vec<String>, random: &mut Random) {
    let ends = places(tokens, |token| token == ";" || token == "}");
    let (Some(one), Some(other)) = (random.pick_any(&ends), random.pick_any(&ends)) else {
        return;
    };
    let passage: Vec<String> = tokens[one.min(other)..one.max(other)].to_vec();
    let later = one.max(other);
    tokens.splice(later..later, passage);
}

/// Damages a byte.
pub fn damage_bytes(bytes: &mut Vec<u8>, random: &mut Random) {
    if bytes.is_empty() {
        return;
    }
    let place = random.below(bytes.len());
    match random.below(4) {
        0 => bytes[place] = random.byte(),
        1 => bytes.insert(place, random.byte()),
        2 => drop(bytes.remove(place)),
        _ => bytes.truncate(place),
    }
}
