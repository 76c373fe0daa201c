//! Traces as they are printed: by `lanq run`, or with commas by
//! `lanq run --csv`.

use data::{Line, LINE_WORDS, UNUSED};

use crate::error::{Error, Place};

/// The ending of a file of printed lines.
pub const PRINTED: &str = "trace";
/// The ending of a file of lines with commas.
pub const CSV: &str = "csv";

/// Reads printed lines: six columns, unused ones as "-". The line of the end is
/// passed over.
pub fn printed(text: &str) -> Result<Vec<Line>, Error> {
    let lines = text.lines().zip(1..).filter(|(line, _)| !line.trim().is_empty() && !line.starts_with("end "));
    let lines = lines.map(|(line, number)| {
        let columns = columns(line, ' ').into_iter().filter(|(_, column)| !column.is_empty());
        read_line(number, columns, "-")
    });
    lines.collect()
}

/// Reads lines with commas after a line of names; unused columns are empty, and
/// columns after the sixth are passed over.
pub fn csv(text: &str) -> Result<Vec<Line>, Error> {
    let lines = text.lines().zip(1..).skip(1).filter(|(line, _)| !line.trim().is_empty());
    let lines = lines.map(|(line, number)| read_line(number, columns(line, ',').into_iter().take(LINE_WORDS), ""));
    lines.collect()
}

/// The columns of a line, each with its place in it.
fn columns(line: &str, mark: char) -> Vec<(usize, &str)> {
    let mut at = 1;
    let columns = line.split(mark).map(|column| {
        let start = at;
        at += column.chars().count() + 1;
        (start, column)
    });
    columns.collect()
}

/// The line of these columns, where `unused` stands for an unused one.
fn read_line<'t>(line: usize, columns: impl Iterator<Item = (usize, &'t str)>, unused: &str) -> Result<Line, Error> {
    let words = columns.map(|(column, text)| match text {
        _ if text == unused => Ok(UNUSED),
        _ => text.parse().map_err(|_| Error::expected(Place { line, column }, "a number from 0 to 65535", text)),
    });
    let words: Vec<u16> = words.collect::<Result<_, Error>>()?;
    let words: [u16; LINE_WORDS] = words.try_into().map_err(|words: Vec<u16>| {
        Error::at(Place { line, column: 1 }, format!("expected six columns, found {}", words.len()))
    })?;
    Ok(Line::from_words(words))
}
