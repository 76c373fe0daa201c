//! The proved library beside the model. The comparison itself is in `tests/`.

#![forbid(unsafe_code)]

pub mod inputs;
pub mod layout;
pub mod result;
pub mod texts;
pub mod traces;

use data::Refusal;
use generate::Case;

/// What both say to the questions about a case.
pub fn verdicts(case: &Case) -> (Result<(), Refusal>, Result<(), Refusal>) {
    let library = lanq::check_in(&case.program, &case.schedule, &case.outcomes, case.work_len);
    let model = model::check(&case.program, &case.schedule, &case.outcomes, case.work_len);
    (library, model.map(|_| ()))
}
