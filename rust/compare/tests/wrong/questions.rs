//! Wrong at the door.

use data::{Question, Refusal, WORK_WORDS};
use generate::Case;
use model::table::Program;

use crate::rules::{Rules, RIGHT};
use crate::Wrong;

pub const WRONG: [Wrong; 7] = [
    ("the work store is asked about first", Rules { check: work_first, ..RIGHT }),
    ("the schedule is asked about before the outcomes", Rules { check: schedule_first, ..RIGHT }),
    ("65,536 schedule bytes pass", Rules { check: one_entry_more, ..RIGHT }),
    ("the work store has to have exactly so many words", Rules { check: exact_work, ..RIGHT }),
    ("outcome bytes are not looked at", Rules { check: any_outcome, ..RIGHT }),
    ("an instruction's place is counted in its method", Rules { check: place_in_method, ..RIGHT }),
    ("a wrong sum counts against the first method", Rules { check: first_method, ..RIGHT }),
];

fn check(case: &Case) -> Result<Program, Refusal> {
    (RIGHT.check)(case)
}

fn work_first(case: &Case) -> Result<Program, Refusal> {
    match case.work_len {
        0..WORK_WORDS => Err(Refusal::new(Question::WorkStore, 0)),
        _ => check(case),
    }
}

fn schedule_first(case: &Case) -> Result<Program, Refusal> {
    match check(case) {
        Err(refusal) if refusal.question == Question::Outcomes && case.schedule.len() > 65_535 => {
            Err(Refusal::new(Question::Schedule, 0))
        }
        answer => answer,
    }
}

fn one_entry_more(case: &Case) -> Result<Program, Refusal> {
    let mut case = case.clone();
    if case.schedule.len() == 65_536 {
        case.schedule.pop();
    }
    check(&case)
}

fn exact_work(case: &Case) -> Result<Program, Refusal> {
    check(case).and_then(|program| match case.work_len {
        WORK_WORDS => Ok(program),
        _ => Err(Refusal::new(Question::WorkStore, 0)),
    })
}

fn any_outcome(case: &Case) -> Result<Program, Refusal> {
    model::check(&case.program, &case.schedule, &[], case.work_len)
}

fn place_in_method(case: &Case) -> Result<Program, Refusal> {
    check(case).map_err(|refusal| match refusal.question {
        Question::Instructions | Question::Types => {
            Refusal { place: refusal.place - offset(case, refusal.place), ..refusal }
        }
        _ => refusal,
    })
}

/// The offset of the method that an instruction stands in.
fn offset(case: &Case, instruction: usize) -> usize {
    let pairs = case.program[2..].chunks_exact(2).take(usize::from(case.program[0]));
    let offsets = pairs.map(|pair| usize::from(pair[0]));
    offsets.filter(|offset| *offset <= instruction).max().unwrap_or(0)
}

fn first_method(case: &Case) -> Result<Program, Refusal> {
    check(case).map_err(|refusal| match refusal.question {
        Question::Pairs if refusal.place + 1 == usize::from(case.program[0]) => Refusal { place: 0, ..refusal },
        _ => refusal,
    })
}
