//! What a line says, in a sentence.

use data::{Event, Gate, Line, NO_CLICK};

use crate::code::Code;

/// A line in words.
pub fn sentence(line: &Line, code: &Code) -> String {
    let says = match line.event() {
        None => format!("writes a line of kind {}", line.kind),
        Some(event) => words(event, code),
    };
    format!("process {} {says}", line.process)
}

fn words(event: Event, code: &Code) -> String {
    match event {
        Event::QubitMade { qubit } => format!("makes qubit {qubit}"),
        Event::ChannelMade { channel } => format!("makes channel {channel}"),
        Event::Gate { gate, qubit, second } => applies(gate, qubit, second),
        Event::Measured { qubit, outcome: NO_CLICK } => format!("measures qubit {qubit}, outcome {NO_CLICK}: no click"),
        Event::Measured { qubit, outcome } => format!("measures qubit {qubit}, outcome {outcome}"),
        Event::Forked { child, method, arguments } => {
            let arguments = match arguments {
                1 => "1 argument".to_string(),
                _ => format!("{arguments} arguments"),
            };
            format!("forks process {child} in method {} with {arguments}", code.method_name(usize::from(method)))
        }
        Event::Gave { to, thing } => format!("gives {thing} to process {to}"),
        Event::Met { receiver, channel, side } => {
            format!("meets process {receiver} over channel {channel}, sending from end {side}")
        }
        Event::Passed { value } => format!("sends the value {value}"),
        Event::Finished => "finishes".to_string(),
        Event::Stopped { fault } => format!("stops by fault {}: {fault}", fault.number()),
    }
}

fn applies(gate: Gate, first: u16, second: Option<u16>) -> String {
    match (gate, second) {
        (Gate::Cx, Some(second)) => format!("applies CX to qubit {second}, controlled by qubit {first}"),
        (_, Some(second)) => format!("applies {gate} to qubits {first} and {second}"),
        (_, None) => format!("applies {gate} to qubit {first}"),
    }
}
