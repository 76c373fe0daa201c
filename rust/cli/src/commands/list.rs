//! `lanq list`

use data::SLOTS;

use crate::asm::list::{list_inputs, listing};
use crate::commands::{Command, CommandResult};
use crate::error::Failure;
use crate::options::{Arguments, INPUTS};

pub const COMMAND: Command = Command {
    name: "list",
    usage: "CASE > FILE.lqa [options]",
    about: "writes a case as text that assembles to the same table, schedule and outcomes",
    more: "\
Names are made up: main, m1, m2; s0 to s15; L7 for the label before instruction 7. Numbers that
have no name are written as raw. A table that question 1 or 2 refuses does not say where a method
starts, and cannot be listed.",
    options: &[INPUTS],
    run,
};

fn run(arguments: &Arguments) -> Result<CommandResult, Failure> {
    let case = arguments.one_case()?.case()?;
    let methods = lanq::Program::from(case.program.as_slice()).methods();
    let methods = methods.map_err(|reason| case.refused(reason.refusal))?;
    let Some(text) = listing(&methods).text else {
        let many = methods.iter().position(|method| usize::from(method.parameters) > SLOTS).unwrap_or_default();
        let parameters = methods[many].parameters;
        return Err(Failure::of(&case.name, format!("method {many} has {parameters} parameters, for {SLOTS} slots")));
    };
    Ok(CommandResult::said(text + &list_inputs(&case.schedule, &case.outcomes)))
}
