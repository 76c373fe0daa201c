//! "The look-up takes any words, k and a qubit number", and the same-lines
//! answer.

use data::{Line, LookUp, LINE_WORDS, UNUSED};

/// The lines that any words make; "a part of one at the end is ignored".
pub fn whole_lines(words: &[u16]) -> Vec<Line> {
    let parts = words.chunks_exact(LINE_WORDS);
    let parts = parts.map(|six| [six[0], six[1], six[2], six[3], six[4], six[5]]);
    parts.map(Line::from_words).collect()
}

/// "among the first k lines (all, if fewer) the latest kind 1 line of that
/// qubit answers its process, the latest kind 6 line with thing 3 and that
/// number its a, whichever is later; 65535 if there is neither"
pub fn qubit_holder(words: &[u16], k: usize, qubit: u16) -> u16 {
    let mut answer = UNUSED;
    for line in whole_lines(words).iter().take(k) {
        if line.kind == 1 && line.a == qubit {
            answer = line.process;
        }
        if line.kind == 6 && line.b == 3 && line.c == qubit {
            answer = line.a;
        }
    }
    answer
}

/// Paper 4: "Read the first k lines (all, if fewer) from the last one backwards
/// and stop at the line that decides; its promise stays, and it also answers
/// how many lines it read, every one when none decides." The promise is
/// [`qubit_holder`]'s.
pub fn look_up(words: &[u16], k: usize, qubit: u16) -> LookUp {
    let lines = whole_lines(words);
    let mut read = 0;
    for line in lines.iter().take(k).rev() {
        read += 1;
        if let Some(holder) = decided(line, qubit) {
            return LookUp { holder: (holder != UNUSED).then_some(holder), read };
        }
    }
    LookUp { holder: None, read }
}

/// The holder that a line gives a qubit, if it decides.
pub fn decided(line: &Line, qubit: u16) -> Option<u16> {
    match line.kind {
        1 if line.a == qubit => Some(line.process),
        6 if line.b == 3 && line.c == qubit => Some(line.a),
        _ => None,
    }
}

/// "whether two traces have the same lines with column 0 left out"; "no where
/// the numbers of lines differ". Paper 11: "Same shall now also need equal
/// gaps".
pub fn same_lines(first: &[u16], second: &[u16]) -> bool {
    without_entries(first) == without_entries(second) && gaps(first) == gaps(second)
}

/// "between each line and the next, the entry number changes by the same amount
/// in both, counted with its sign and never wrapped"
fn gaps(words: &[u16]) -> Vec<i32> {
    let lines = whole_lines(words);
    let entries = lines.iter().map(|line| i32::from(line.entry));
    entries.clone().zip(entries.skip(1)).map(|(one, next)| next - one).collect()
}

/// The lines, each with the same number in column 0.
fn without_entries(words: &[u16]) -> Vec<Line> {
    let lines = whole_lines(words).into_iter();
    lines.map(|line| Line { entry: 0, ..line }).collect()
}
