//! The inputs of the run's comparison, each named by a number.

use data::WORK_WORDS;
use generate::{case, Case, Random};

/// A generated case, as it is or bent.
pub fn input(number: u64) -> Case {
    let mut case = case(number);
    // Other numbers than those that made the case.
    let mut random = Random::new(!number);
    match random.below(4) {
        0 => other_schedule(&mut case, &mut random),
        1 => other_word(&mut case, &mut random),
        _ => (),
    }
    case
}

/// The case with the shortest start of its schedule on which it still differs;
/// the whole case where no start does.
pub fn shortest(case: &Case, differs: impl Fn(&Case) -> bool) -> Case {
    let mut starts =
        (0..=case.schedule.len()).map(|length| Case { schedule: case.schedule[..length].to_vec(), ..case.clone() });
    starts.find(differs).unwrap_or_else(|| case.clone())
}

/// A schedule that takes no account of who is able to move, in buffers of
/// other lengths, mostly of little room.
fn other_schedule(case: &mut Case, random: &mut Random) {
    let processes = random.between(1, 10);
    let length = random.below(300);
    case.schedule = (0..length).map(|_| random.below(processes) as u8).collect();
    case.trace_len = random.below(200);
    case.work_len = WORK_WORDS - 1 + random.pick(&[0, 1, 2, 161, 809]);
}

/// One word of the table changed, at a place and to a value of no special
/// kind. Most of these are refused; some run, which no plan foresaw.
fn other_word(case: &mut Case, random: &mut Random) {
    if !case.program.is_empty() {
        let at = random.below(case.program.len());
        case.program[at] = random.below(40) as u16;
    }
}
