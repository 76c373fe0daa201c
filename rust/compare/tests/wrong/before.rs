//! The machine as it was before a paper, in the words of document 01.

use data::{Question, Refusal, Value};
use generate::Case;
use model::machine::{Machine, Readiness};
use model::step::Effect;
use model::table::Op;
use model::Program;

use crate::rules::{effect, end_by, End, Rules, RIGHT};

/// The rules before a paper.
pub struct EarlierRules {
    pub paper: u16,
    pub rules: Rules,
    /// Whether the paper may change what a case leaves.
    pub touches: fn(&Case) -> bool,
}

pub const ALL: [EarlierRules; 2] = [
    EarlierRules {
        paper: 3,
        rules: Rules { check: outcomes_0_and_1, effect: measures_0_or_1, ..RIGHT },
        touches: |case| case.outcomes.contains(&2),
    },
    EarlierRules {
        paper: 6,
        rules: Rules {
            readiness: gone_waits,
            end: |machine| end_by(machine, gone_waits),
            last_end: |machine| end_by(machine, gone_waits).unwrap_or(End::ScheduleUsed),
            ..RIGHT
        },
        touches: some_partner_goes,
    },
];

/// "Is each outcome byte 0 or 1? 6 (its index)"
pub fn outcomes_0_and_1(case: &Case) -> Result<Program, Refusal> {
    let program = model::check(&case.program, &case.schedule, &[], case.work_len);
    match case.outcomes.iter().position(|byte| !matches!(byte, 0 | 1)) {
        // Questions 7 and 8 come after this one.
        Some(index) if program.as_ref().err().is_none_or(|refusal| refusal.question > Question::Outcomes) => {
            Err(Refusal::new(Question::Outcomes, index))
        }
        _ => program,
    }
}

/// "qubit off, next outcome on as int", and an outcome is 0 or 1.
fn measures_0_or_1(machine: &Machine, process: usize, partner: Option<usize>) -> Effect {
    let mut effect = effect(machine, process, partner);
    if let (Some(Op::Measure), None) = (machine.op_of(process), effect.fault) {
        let is_1 = machine.outcomes[machine.outcomes_used] == 1;
        let frame = effect.config.processes[process].frames.last_mut().expect("it runs");
        *frame.pending.last_mut().expect("MEAS pushes") = Value::Int(i32::from(is_1));
        effect.lines[0].b = u16::from(is_1);
    }
    effect
}

/// "SEND waits unless another process stands at RECV with the opposite end as
/// its operand, and RECV likewise".
pub fn gone_waits(machine: &Machine, number: usize) -> Readiness {
    match machine.gone_for(number) {
        Some(_) => Readiness::Waits,
        None => machine.readiness(number),
    }
}

/// Whether at some time a process stands at SEND or RECV whose partner has gone.
fn some_partner_goes(case: &Case) -> bool {
    let Ok(program) = (RIGHT.check)(case) else {
        return false;
    };
    let mut machine = Machine::new(&program, &case.outcomes, case.trace_len);
    let mut bytes = case.schedule.iter();
    loop {
        if (0..8).any(|number| machine.gone_for(number).is_some()) {
            return true;
        }
        match bytes.next() {
            Some(byte) if machine.entry(*byte).is_ok() => (),
            _ => return false,
        }
    }
}
