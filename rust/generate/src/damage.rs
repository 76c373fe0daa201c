//! Damaged inputs: each of the eight questions gets its no, at many places.

use data::program::{op::*, table, Method};
use data::WORK_WORDS;
use model::table::{instruction_place, pair_place, row_place, Words};

use crate::mistype::mistype;
use crate::random::Random;
use crate::typed::KINDS;
use crate::Case;

/// Damages the case of these methods; at times twice, so that the order of
/// the questions matters.
pub fn damage(case: &mut Case, mut methods: Vec<Method>, random: &mut Random) {
    let times = random.pick(&[1, 1, 1, 2]);
    let weights = [3, 3, 4, 5, 12, 2, 1, 2];
    let mut numbers: Vec<usize> = (0..times).map(|_| random.weighted(&weights) + 1).collect();
    // The table is written anew after question 5's damage, so that comes first.
    numbers.sort_by_key(|number| *number != 5);
    for number in numbers {
        match number {
            1 => sizes(&mut case.program, random),
            2 => pairs(&mut case.program, &methods, random),
            3 => rows(&mut case.program, &methods, random),
            4 => instruction(&mut case.program, &methods, random),
            5 => {
                mistype(&mut methods, random);
                case.program = table(&methods);
            }
            6 => outcomes(&mut case.outcomes, random),
            7 => schedule(&mut case.schedule, random),
            // 8,192 words were enough before Paper 7.
            _ => case.work_len = random.pick(&[0, 1, 8_191, 8_192, WORK_WORDS - 1]),
        }
    }
}

/// Sets a word, if there still is one.
fn set(words: &mut [u16], place: usize, word: u16) {
    if let Some(place) = words.get_mut(place) {
        *place = word;
    }
}

/// Question 1.
fn sizes(words: &mut Vec<u16>, random: &mut Random) {
    match random.below(7) {
        0 => set(words, 0, random.pick(&[0, 33, 34, 65_535])),
        1 => set(words, 1, random.pick(&[0, 4_097, 65_535])),
        2 => set(words, random.below(2), random.edgy_word()),
        3 => words.truncate(random.below(4)),
        4 => {
            words.pop();
        }
        5 => words.push(random.edgy_word()),
        _ => words.truncate(random.below(words.len().max(1))),
    }
}

/// Question 2.
fn pairs(words: &mut [u16], methods: &[Method], random: &mut Random) {
    let place = pair_place(random.below(methods.len()));
    // An earlier damage may have cut the words short.
    let offset = Words(words).at(place);
    let length = Words(words).at(place + 1);
    match random.below(8) {
        0 => set(words, place, offset.wrapping_add(1)),
        1 => set(words, place, offset.wrapping_sub(1)),
        2 => set(words, place, random.edgy_word()),
        3 => set(words, place + 1, 0),
        4 => set(words, place + 1, length.wrapping_add(1)),
        5 => set(words, place + 1, length.wrapping_sub(1)),
        6 => set(words, place + 1, random.edgy_word()),
        _ => {
            // Only the sum is wrong.
            let last = pair_place(methods.len() - 1) + 1;
            let word = Words(words).at(last);
            let word = word.wrapping_add(random.word_between(1, 3));
            set(words, last, word);
        }
    }
}

/// Question 3.
fn rows(words: &mut [u16], methods: &[Method], random: &mut Random) {
    let method = match random.chance(30) {
        true => 0,
        false => random.below(methods.len()),
    };
    let place = row_place(methods.len(), method);
    let wrong = [4, 5, 15, 16, 20, 22, 31, 32, 36, 38, 48, 51, 65_535];
    match random.below(7) {
        0 => set(words, place, random.pick(&wrong)),
        1 => set(words, place, random.pick(&[0, 1, 2, 3, 17, 35])),
        2 => set(words, place + 1, random.pick(&[9, 16, 17, 65_535])),
        3 => set(words, place + 1, random.word_between(0, 8)),
        4 => set(words, place + 2 + random.below(8), 0),
        5 => set(words, place + 2 + random.below(16), random.pick(&wrong)),
        _ => {
            // All slots used: then only the count of parameters is wrong.
            set(words, place + 1, random.word_between(7, 10));
            for slot in 0..16 {
                set(words, place + 2 + slot, random.pick(&KINDS));
            }
        }
    }
}

/// Question 4: an op or an argument that is not in range, often only just.
fn instruction(words: &mut [u16], methods: &[Method], random: &mut Random) {
    let method = random.below(methods.len());
    let before: usize = methods[..method].iter().map(|one| one.code.len()).sum();
    let index = random.below(methods[method].code.len());
    let place = instruction_place(methods.len(), before + index);
    match random.below(5) {
        0 => set(words, place, random.pick(&[0, 24, 25, 26, 255, 65_535])),
        1 => set(words, place + 1, random.edgy_word()),
        2 => {
            set(words, place, random.word_between(1, 23));
            set(words, place + 1, random.word_between(0, 17));
        }
        _ => {
            let (op, _) = methods[method].code[index];
            let beyond = just_beyond(op, methods, method, random);
            set(words, place + 1, beyond);
        }
    }
}

/// The first argument that is out of an op's range, or near it.
fn just_beyond(op: u16, methods: &[Method], method: usize, random: &mut Random) -> u16 {
    let source = &methods[method];
    match op {
        GET | PUT | CLEAR => {
            let unused = source.slots.iter().position(|kind| *kind == 0);
            let unused = unused.unwrap_or(source.slots.len());
            random.pick(&[unused as u16, source.slots.len() as u16, 16])
        }
        CALL | FORK => methods.len() as u16,
        JUMP | JFALSE => source.code.len() as u16,
        BOOL | END => 2,
        NEWC => random.pick(&[0, 4]),
        GATE => random.pick(&[0, 9]),
        _ => 1,
    }
}

/// Question 6.
fn outcomes(outcomes: &mut Vec<u8>, random: &mut Random) {
    if outcomes.is_empty() {
        outcomes.push(0);
    }
    let index = random.below(outcomes.len());
    outcomes[index] = random.pick(&[3, 4, 128, 255]);
}

/// Question 7, and the longest schedule that passes.
fn schedule(schedule: &mut Vec<u8>, random: &mut Random) {
    let length = random.pick(&[65_535, 65_536, 65_537, 70_000]);
    schedule.resize(length, 0);
}
