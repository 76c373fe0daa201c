//! "The printing program reads standard input, at most 65,536 bytes".

use data::{Gate, Line, Question, Refusal, Run, LINE_WORDS, WORK_WORDS};

use crate::machine::check_and_run;

/// The longest file.
pub const MOST_FILE_BYTES: usize = 65_536;
/// "Its trace holds 4,096 lines."
pub const TRACE_LINES: usize = 4_096;
/// "three pairs (offset, length) of 32-bit numbers"
const HEADER_BYTES: usize = 24;

/// A file's three parts.
struct Parts<'a> {
    program: Vec<u16>,
    schedule: &'a [u8],
    outcomes: &'a [u8],
}

/// What the printing program prints for a file of any bytes.
pub fn print(file: &[u8]) -> String {
    match run_file(file) {
        Ok(run) => print_run(&run),
        Err(refusal) => format!("refused {} {}\n", refusal.number(), refusal.place),
    }
}

/// Reads, checks and runs a file. What is no such file is refused first.
fn run_file(file: &[u8]) -> Result<Run, Refusal> {
    let parts = read_file(file).ok_or(Refusal::new(Question::File, 0))?;
    check_and_run(&parts.program, parts.schedule, parts.outcomes, TRACE_LINES * LINE_WORDS, WORK_WORDS)
}

/// The parts, "adjacent from byte 24 to the file's end"; none where the file
/// is "otherwise built, longer, or with an odd program length".
fn read_file(file: &[u8]) -> Option<Parts<'_>> {
    if file.len() > MOST_FILE_BYTES || file.len() < HEADER_BYTES {
        return None;
    }
    let (program, rest) = read_part(file, 0, HEADER_BYTES)?;
    let (schedule, rest) = read_part(file, 1, rest)?;
    let (outcomes, rest) = read_part(file, 2, rest)?;
    if rest != file.len() || program.len() % 2 != 0 {
        return None;
    }
    Some(Parts { program: read_words(program), schedule, outcomes })
}

/// One part, which must start where the one before ended, and where it ends.
fn read_part(file: &[u8], part: usize, start: usize) -> Option<(&[u8], usize)> {
    let offset = read_number(file, 8 * part)?;
    let length = read_number(file, 8 * part + 4)?;
    if offset != start {
        return None;
    }
    let end = start.checked_add(length)?;
    Some((file.get(start..end)?, end))
}

/// A 32-bit number, "lowest byte first".
fn read_number(file: &[u8], place: usize) -> Option<usize> {
    let bytes = file.get(place..place + 4)?;
    let number = u32::from_le_bytes([bytes[0], bytes[1], bytes[2], bytes[3]]);
    usize::try_from(number).ok()
}

/// "16-bit words, lowest byte first"
fn read_words(bytes: &[u8]) -> Vec<u16> {
    let pairs = bytes.chunks_exact(2);
    pairs.map(|pair| u16::from_le_bytes([pair[0], pair[1]])).collect()
}

/// The lines, then "end, entries, lines, outcomes".
fn print_run(run: &Run) -> String {
    let mut text: String = run.lines.iter().map(print_line).collect();
    let end = run.end.number();
    let lines = run.lines.len();
    text += &format!("end {end} {} {lines} {}\n", run.entries, run.outcomes);
    text
}

/// One line: "Columns as above, unused ones as "-"".
fn print_line(line: &Line) -> String {
    let [a, b, c] = columns_used(line);
    let first = format!("{} {} {}", line.entry, line.process, line.kind);
    let a = print_column(line.a, a);
    let b = print_column(line.b, b);
    let c = print_column(line.c, c);
    format!("{first} {a} {b} {c}\n")
}

fn print_column(number: u16, used: bool) -> String {
    match used {
        true => number.to_string(),
        false => "-".to_string(),
    }
}

/// Which of a, b, c a line uses. It goes by the kind, not by the number:
/// "kind 8 uses a and b, 65535 included".
fn columns_used(line: &Line) -> [bool; 3] {
    match line.kind {
        1 | 2 | 10 => [true, false, false],
        3 => [true, true, Gate::read(line.a).is_some_and(Gate::takes_two)],
        4 | 8 => [true, true, false],
        5..=7 => [true, true, true],
        _ => [false, false, false],
    }
}
