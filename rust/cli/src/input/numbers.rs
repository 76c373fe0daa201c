//! Schedules and outcomes as they are written, in an option or in a file.

use crate::asm::cursor::Cursor;
use crate::asm::lex::{lines, Kind};
use crate::asm::parse::MOST_NUMBERS;
use crate::error::{Error, Place};

/// The longest schedule that is run.
pub const MOST_ENTRIES: usize = 65_535;

/// A schedule as it is asked for.
#[derive(Clone, Debug, PartialEq, Eq)]
pub enum Schedule {
    /// `0,0,1*5`: these entries.
    Entries(Vec<u8>),
    /// `round-robin:200`: so many entries, the processes in turn.
    RoundRobin(usize),
    /// `until-stuck`: the processes in turn up to the run's end, idle entries
    /// left out.
    UntilStuck,
}

const ROUND_ROBIN: &str = "round-robin:";
const UNTIL_STUCK: &str = "until-stuck";

/// Reads a schedule. Entries stand with commas or blanks between them, some of
/// them in parentheses to be repeated; what follows `#` in a line is a comment.
pub fn schedule(text: &str) -> Result<Schedule, Error> {
    let bare = text.lines().map(|line| line.split('#').next().unwrap_or_default().trim());
    let bare: String = bare.collect();
    if bare == UNTIL_STUCK {
        return Ok(Schedule::UntilStuck);
    }
    if let Some(count) = bare.strip_prefix(ROUND_ROBIN) {
        let count = count.parse().ok().filter(|count| (1..=MOST_ENTRIES).contains(count));
        return count.map(Schedule::RoundRobin).ok_or_else(|| {
            let what = format!("`{ROUND_ROBIN}` and a number of entries from 1 to {MOST_ENTRIES}");
            Error::expected(place_of(text, ROUND_ROBIN), &what, &bare)
        });
    }
    let mut entries = Vec::new();
    let expected = format!("a process from 0 to 255, `{ROUND_ROBIN}N` or `{UNTIL_STUCK}`");
    each(text, &expected, |word| word.parse().ok().map(|number| vec![number]), &mut entries)?;
    Ok(Schedule::Entries(entries))
}

/// Reads outcomes: every digit is one, `1*5` is five of them.
pub fn outcomes(text: &str) -> Result<Vec<u8>, Error> {
    let mut outcomes = Vec::new();
    let digits = |word: &str| word.bytes().map(|byte| byte.is_ascii_digit().then(|| byte - b'0')).collect();
    each(text, "outcomes, one digit each", digits, &mut outcomes)?;
    Ok(outcomes)
}

/// Reads items `WORD`, `WORD * COUNT` or `( ITEM .. ) * COUNT`, where a word
/// stands for some numbers.
fn each(text: &str, what: &str, read: impl Fn(&str) -> Option<Vec<u8>>, into: &mut Vec<u8>) -> Result<(), Error> {
    for line in lines(text)? {
        let line = &mut Cursor::new(&line);
        while !line.at_end() {
            let place = line.place();
            match line.skip("(") {
                true => group(line, what, &read, into)?,
                false => item(line, what, &read, into)?,
            }
            check_length(place, into.len())?;
            line.skip(",");
        }
    }
    Ok(())
}

/// After `(`.
fn group(
    line: &mut Cursor,
    what: &str,
    read: &impl Fn(&str) -> Option<Vec<u8>>,
    into: &mut Vec<u8>,
) -> Result<(), Error> {
    let mut numbers = Vec::new();
    while !line.skip(")") {
        item(line, what, read, &mut numbers)?;
        line.skip(",");
    }
    let place = line.place();
    line.mark("*")?;
    let count = count(line)?;
    check_length(place, into.len() + numbers.len() * count)?;
    into.extend(numbers.repeat(count));
    Ok(())
}

fn item(
    line: &mut Cursor,
    what: &str,
    read: &impl Fn(&str) -> Option<Vec<u8>>,
    into: &mut Vec<u8>,
) -> Result<(), Error> {
    let place = line.place();
    let token = line.take(Kind::Number, what)?;
    let numbers = read(token.text).ok_or_else(|| Error::expected(place, what, token.text))?;
    match (line.skip("*"), numbers.as_slice()) {
        (false, _) => into.extend(&numbers),
        (true, [one]) => into.extend(std::iter::repeat_n(*one, count(line)?)),
        (true, _) => return Err(Error::expected(place, "one digit before `*`", token.text)),
    }
    Ok(())
}

/// Stops before a small text asks for endless room.
fn check_length(place: Place, length: usize) -> Result<(), Error> {
    match length > MOST_NUMBERS {
        true => Err(Error::at(place, format!("expected at most {MOST_NUMBERS} numbers, found more"))),
        false => Ok(()),
    }
}

fn count(line: &mut Cursor) -> Result<usize, Error> {
    let what = "a count from 1 to 65535";
    let token = line.take(Kind::Number, what)?;
    let count = token.text.parse().ok().filter(|count| (1..=65_535).contains(count));
    count.ok_or_else(|| Error::expected(token.place, what, token.text))
}

/// Where a word stands in a text.
fn place_of(text: &str, word: &str) -> Place {
    let line = text.lines().position(|line| line.contains(word)).unwrap_or_default();
    let column = text.lines().nth(line).and_then(|line| line.find(word)).unwrap_or_default();
    Place { line: line + 1, column: column + 1 }
}
