//! Files for the printing program, well and badly built.

use crate::random::Random;
use crate::{case, Case};

/// The file of a seed: mostly the case of that seed, one in four damaged.
pub fn file(seed: u64) -> Vec<u8> {
    let mut random = Random::new(seed ^ 0x66_69_6C_65);
    let Case { program, schedule, outcomes, .. } = case(seed);
    let mut bytes = data::file::file(&program, &schedule, &outcomes);
    if random.chance(25) {
        damage(&mut bytes, &mut random);
    }
    bytes
}

/// One of several ways in which a file is otherwise built.
fn damage(bytes: &mut Vec<u8>, random: &mut Random) {
    match random.below(9) {
        0 => bytes.truncate(random.below(26)),
        1 => {
            bytes.pop();
        }
        2 => bytes.push(random.byte()),
        3 => bytes.resize(random.pick(&[65_535, 65_536, 65_537, 66_000]), 9),
        4 => to_length(bytes, random.pick(&[65_535, 65_536, 65_537])),
        5 => odd_program(bytes),
        6 => swap_pairs(bytes, random),
        7 => any_byte(bytes, random),
        _ => {
            let number = random.below(6);
            let value = header_number(random);
            set_number(bytes, number, value);
        }
    }
}

/// A number for the header, near an edge.
fn header_number(random: &mut Random) -> u32 {
    match random.below(4) {
        0 => random.below(200) as u32,
        1 => u32::MAX - random.below(100) as u32,
        2 => 1 << random.below(32),
        _ => random.bits() as u32,
    }
}

fn number(bytes: &[u8], index: usize) -> Option<u32> {
    let four = bytes.get(4 * index..4 * index + 4)?;
    Some(u32::from_le_bytes([four[0], four[1], four[2], four[3]]))
}

fn set_number(bytes: &mut [u8], index: usize, value: u32) {
    if let Some(four) = bytes.get_mut(4 * index..4 * index + 4) {
        four.copy_from_slice(&value.to_le_bytes());
    }
}

/// Makes the outcomes so much longer that the file has this length and is
/// otherwise right.
fn to_length(bytes: &mut Vec<u8>, length: usize) {
    let (Some(outcomes), true) = (number(bytes, 5), bytes.len() < length) else {
        return;
    };
    let added = (length - bytes.len()) as u32;
    set_number(bytes, 5, outcomes + added);
    bytes.resize(length, 1);
}

/// Moves the bound of program and schedule by one: adjacent, but odd.
fn odd_program(bytes: &mut [u8]) {
    let numbers = (number(bytes, 1), number(bytes, 2), number(bytes, 3));
    if let (Some(program), Some(start), Some(schedule)) = numbers {
        if schedule > 0 {
            set_number(bytes, 1, program + 1);
            set_number(bytes, 2, start + 1);
            set_number(bytes, 3, schedule - 1);
        }
    }
}

fn swap_pairs(bytes: &mut [u8], random: &mut Random) {
    let (first, second) = random.pick(&[(0, 1), (1, 2), (0, 2)]);
    for half in 0..2 {
        let numbers = (number(bytes, 2 * first + half), number(bytes, 2 * second + half));
        if let (Some(one), Some(other)) = numbers {
            set_number(bytes, 2 * first + half, other);
            set_number(bytes, 2 * second + half, one);
        }
    }
}

fn any_byte(bytes: &mut [u8], random: &mut Random) {
    if !bytes.is_empty() {
        let place = random.below(bytes.len().min(200));
        bytes[place] = random.byte();
    }
}
