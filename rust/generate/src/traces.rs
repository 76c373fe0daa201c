//! Traces of no run, for the look-up and the same-lines answer.

use data::{Line, LINE_WORDS};

use crate::random::Random;

/// The words of a seed: often lines of the kinds that count, at times with a
/// part of a line at the end.
pub fn trace(seed: u64) -> Vec<u16> {
    words(&mut Random::new(seed ^ 0x74_72_61_63_65))
}

fn words(random: &mut Random) -> Vec<u16> {
    let length = random.below(80);
    (0..length)
        .map(|at| match at % 6 {
            2 => random.pick(&[1, 6, 6, 2, 65535]),
            4 => random.pick(&[3, 3, 4, 5]),
            _ => random.pick(&[0, 1, 2, 65535]),
        })
        .collect()
}

/// How the second of two traces differs from the first.
#[derive(Clone, Copy, Debug, PartialEq, Eq, PartialOrd, Ord)]
pub enum Difference {
    Nothing,
    /// All entry numbers are higher or lower by the same.
    Shift,
    /// The one line there is stands in another entry.
    OnlyEntry,
    /// One gap, and not the last.
    Gap,
    LastGap,
    /// The gaps before and after one line.
    TwoGaps,
    /// The sign of one gap.
    Sign,
    /// Gaps that would agree if they were wrapped at 16 bits.
    Wrapped,
    /// This column of one line, the entry left out.
    Column(usize),
    /// A line more at the end.
    Line,
    /// A part of a line at the end.
    Part,
}

impl Difference {
    /// Every one there is.
    pub const ALL: [Difference; 15] = [
        Difference::Nothing,
        Difference::Shift,
        Difference::OnlyEntry,
        Difference::Gap,
        Difference::LastGap,
        Difference::TwoGaps,
        Difference::Sign,
        Difference::Wrapped,
        Difference::Column(1),
        Difference::Column(2),
        Difference::Column(3),
        Difference::Column(4),
        Difference::Column(5),
        Difference::Line,
        Difference::Part,
    ];

    /// Paper 11: "Traces shifted as a whole still match." Without a second line
    /// there is no gap, and a part of a line is ignored.
    pub fn is_same(self) -> bool {
        matches!(self, Difference::Nothing | Difference::Shift | Difference::OnlyEntry | Difference::Part)
    }
}

/// Two traces, the second made from the first.
#[derive(Clone, Debug, PartialEq, Eq)]
pub struct Pair {
    pub first: Vec<u16>,
    pub second: Vec<u16>,
    pub difference: Difference,
}

/// The pair of a seed.
pub fn pair(seed: u64) -> Pair {
    let mut random = Random::new(seed ^ 0x70_61_69_72);
    let first = lines(&mut random);
    let wanted = random.pick(&Difference::ALL);
    let changed = change(&first, wanted, &mut random);
    let difference = changed.as_ref().map_or(Difference::Nothing, |_| wanted);
    let first: Vec<u16> = first.iter().flat_map(|line| line.words()).collect();
    let mut second = changed.map_or(first.clone(), |lines| lines.iter().flat_map(|line| line.words()).collect());
    if difference == Difference::Part {
        second.extend((0..random.between(1, LINE_WORDS - 1)).map(|_| random.edgy_word()));
    }
    Pair { first, second, difference }
}

/// Up to twelve lines: their entries rise as a run's do, or are any numbers.
fn lines(random: &mut Random) -> Vec<Line> {
    let count = random.pick(&[0, 1, 1, 2, 2, 3, 5, 8, 12]);
    let rises = random.chance(60);
    let step = random.pick(&[1, 3, 5_000]);
    let mut entry = random.below(300);
    let mut line = || {
        let columns = [(); 5].map(|_| random.pick(&[0, 1, 3, 6, 65_535]));
        entry = match rises {
            true => (entry + random.below(step + 1)).min(65_535),
            false => usize::from(random.edgy_word()),
        };
        Line::from_words([entry as u16, columns[0], columns[1], columns[2], columns[3], columns[4]])
    };
    (0..count).map(|_| line()).collect()
}

/// The lines changed in the way that is wanted, where they can be.
fn change(lines: &[Line], wanted: Difference, random: &mut Random) -> Option<Vec<Line>> {
    let count = lines.len();
    let last = count.checked_sub(1)?;
    let amount = random.pick(&[-40_000, -700, -2, -1, 1, 2, 700, 40_000]);
    match wanted {
        Difference::Nothing | Difference::Part => Some(lines.to_vec()),
        Difference::Shift => shifted(lines, 0..count, amount),
        Difference::OnlyEntry if count == 1 => shifted(lines, 0..count, amount),
        Difference::Gap if count > 2 => shifted(lines, random.between(1, last - 1)..count, amount),
        Difference::LastGap if count > 1 => shifted(lines, last..count, amount),
        Difference::TwoGaps if count > 2 => {
            let at = random.between(1, last - 1);
            shifted(lines, at..at + 1, amount)
        }
        Difference::Sign if count > 1 => {
            let at = random.between(1, last);
            let gap = i32::from(lines[at].entry) - i32::from(lines[at - 1].entry);
            shifted(lines, at..count, -2 * gap).filter(|_| gap != 0)
        }
        Difference::Wrapped => wrapped(lines, random),
        Difference::Column(column) => {
            let mut lines = lines.to_vec();
            let at = random.below(count);
            let mut words = lines[at].words();
            words[column] ^= 1 << random.below(16);
            lines[at] = Line::from_words(words);
            Some(lines)
        }
        Difference::Line => Some([lines, &lines[last..]].concat()),
        _ => None,
    }
}

/// The entries of these lines higher by so much, where they stay numbers of 16
/// bits.
fn shifted(lines: &[Line], which: std::ops::Range<usize>, amount: i32) -> Option<Vec<Line>> {
    let mut lines = lines.to_vec();
    for line in &mut lines[which] {
        line.entry = u16::try_from(i32::from(line.entry) + amount).ok()?;
    }
    Some(lines)
}

/// All entries higher by the same, the highest of them beyond 16 bits, where
/// not all are equal.
fn wrapped(lines: &[Line], random: &mut Random) -> Option<Vec<Line>> {
    let entries = || lines.iter().map(|line| line.entry);
    let (lowest, highest) = (entries().min()?, entries().max()?);
    let amount = match highest - lowest {
        0 => return None,
        _ => random.word_between(65_535 - highest, 65_534 - lowest) + 1,
    };
    Some(lines.iter().map(|line| Line { entry: line.entry.wrapping_add(amount), ..*line }).collect())
}
