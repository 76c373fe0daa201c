//! Wrong look-ups of a holder.

use compare::traces::{asked, TRACES};
use data::{Line, LookUp, UNUSED};
use generate::trace;
use model::lookup::{decided, look_up, whole_lines};

type Wrong = (&'static str, fn(&[u16], usize, u16) -> LookUp);

const WRONG: [Wrong; 15] = [
    ("the first line that decides answers", first_decides),
    ("k is not looked at", |words, _, qubit| look_up(words, usize::MAX, qubit)),
    ("k lines are read from the trace's end", last_k),
    ("one line too few is read", |words, k, qubit| look_up(words, k.saturating_sub(1), qubit)),
    ("a part of a line is a line", part_read),
    ("the giver answers", |words, k, qubit| by(words, k, |line| decided(line, qubit).map(|_| line.process))),
    ("whatever is given decides", |words, k, qubit| by(words, k, |line| any_thing(line, qubit))),
    ("only makings decide", |words, k, qubit| by(words, k, |line| of_kind(line, 1, qubit))),
    ("only givings decide", |words, k, qubit| by(words, k, |line| of_kind(line, 6, qubit))),
    ("a line that names 65535 does not decide", |words, k, qubit| by(words, k, |line| somebody(line, qubit))),
    ("the line that decides is not counted", |words, k, qubit| counted(words, k, qubit, |read, _| read - 1)),
    ("every line is counted", |words, k, qubit| counted(words, k, qubit, |_, lines| lines)),
    ("lines are counted from the first one", |words, k, qubit| {
        counted(words, k, qubit, |read, lines| lines + 1 - read)
    }),
    ("k is counted where no line decides", |words, k, qubit| undecided(words, k, qubit, k)),
    ("nothing is counted where no line decides", |words, k, qubit| undecided(words, k, qubit, 0)),
];

/// The look-up with another way to decide.
fn by(words: &[u16], k: usize, decided: impl Fn(&Line) -> Option<u16>) -> LookUp {
    let lines = whole_lines(words);
    let lines = &lines[..k.min(lines.len())];
    let found = lines.iter().rev().enumerate().find_map(|(at, line)| Some((at + 1, decided(line)?)));
    let (read, holder) = found.unwrap_or((lines.len(), UNUSED));
    LookUp { holder: (holder != UNUSED).then_some(holder), read }
}

fn of_kind(line: &Line, kind: u16, qubit: u16) -> Option<u16> {
    decided(line, qubit).filter(|_| line.kind == kind)
}

fn any_thing(line: &Line, qubit: u16) -> Option<u16> {
    match line.kind {
        6 if line.c == qubit => Some(line.a),
        _ => decided(line, qubit),
    }
}

fn somebody(line: &Line, qubit: u16) -> Option<u16> {
    decided(line, qubit).filter(|holder| *holder != UNUSED)
}

fn first_decides(words: &[u16], k: usize, qubit: u16) -> LookUp {
    let lines = whole_lines(words);
    let from_last: Vec<u16> = lines.iter().take(k).rev().flat_map(|line| line.words()).collect();
    look_up(&from_last, k, qubit)
}

fn last_k(words: &[u16], k: usize, qubit: u16) -> LookUp {
    let lines = whole_lines(words);
    let left_out = lines.len() - k.min(lines.len());
    look_up(&words[6 * left_out..], k, qubit)
}

fn part_read(words: &[u16], k: usize, qubit: u16) -> LookUp {
    let mut words = words.to_vec();
    words.resize(words.len().next_multiple_of(6), UNUSED);
    look_up(&words, k, qubit)
}

/// The first k lines, all if fewer, and whether one of them decides.
fn first(words: &[u16], k: usize, qubit: u16) -> (usize, bool) {
    let lines = whole_lines(words);
    let lines = &lines[..k.min(lines.len())];
    (lines.len(), lines.iter().any(|line| decided(line, qubit).is_some()))
}

/// The right holder, with another count of what was read among so many lines,
/// where one of them decides.
fn counted(words: &[u16], k: usize, qubit: u16, count: fn(usize, usize) -> usize) -> LookUp {
    let right = look_up(words, k, qubit);
    match first(words, k, qubit) {
        (lines, true) => LookUp { read: count(right.read, lines), ..right },
        (_, false) => right,
    }
}

/// The right answer, with another count where no line decides.
fn undecided(words: &[u16], k: usize, qubit: u16, read: usize) -> LookUp {
    let right = look_up(words, k, qubit);
    match first(words, k, qubit) {
        (_, true) => right,
        (_, false) => LookUp { read, ..right },
    }
}

/// On what the comparison of the look-ups asks.
#[test]
fn every_wrong_look_up_is_told_apart() {
    let mut hidden = WRONG.to_vec();
    for seed in 0..TRACES {
        let words = trace(seed);
        for (k, qubit) in asked(&words) {
            let right = look_up(&words, k, qubit);
            hidden.retain(|(name, wrong)| {
                let answer = wrong(&words, k, qubit);
                if answer != right {
                    println!("trace {seed:3}, k {k}, qubit {qubit}: {name}: {answer:?}, model {right:?}");
                }
                answer == right
            });
        }
    }
    let names: Vec<&str> = hidden.iter().map(|(name, _)| *name).collect();
    assert!(names.is_empty(), "not told apart: {names:?}");
}
