//! Results for other programs: a run or a refusal as JSON, a trace as CSV. The
//! keys are listed in docs/COMMAND.md; further ones may come, none goes.

use data::{Frame, Line, Process, Run, State, Value};

use crate::asm::list::items;
use crate::case_refusal::{CaseRefusal, RefusalPlace};
use crate::code::{Code, Origin, Site};
use crate::error::Place;
use crate::holders::Holders;
use crate::input::case::Case;
use crate::json::Json;
use crate::machine::Machine;

/// Rises where a key changes its meaning.
pub const FORMAT: u16 = 1;
/// The command's version.
pub const VERSION: &str = env!("CARGO_PKG_VERSION");

/// What a case brought about.
pub type Result<'r> = std::result::Result<&'r Run, &'r CaseRefusal>;

/// How much of a run is reported.
#[derive(Clone, Copy, Debug, PartialEq, Eq)]
pub enum Detail {
    /// The answer and the faults.
    Short,
    /// The trace and the final configuration too.
    Whole,
}

/// The object of a case.
pub fn case_json(
    name: &str,
    case: &Case,
    machine: Machine,
    room: Option<usize>,
    result: Result,
    detail: Detail,
) -> Json {
    let mut keys = vec![
        ("case", Json::text(name)),
        ("format", Json::number(FORMAT)),
        ("version", Json::text(VERSION)),
        ("inputs", Json::text(digest(case, room))),
        ("machine", Json::text(machine.name())),
        ("schedule", Json::text(items(&case.schedule).join(" "))),
        ("outcomes", Json::list(case.outcomes.iter().map(|byte| Json::number(*byte)))),
    ];
    match result {
        Ok(run) => {
            keys.push(("refused", Json::Null));
            keys.extend(run_keys(run));
            if detail == Detail::Whole {
                keys.extend(whole_keys(case, run));
            }
        }
        Err(refused) => keys.push(("refused", refused_json(refused))),
    }
    Json::Object(keys.into_iter().map(|(key, value)| (key.to_string(), value)).collect())
}

/// The object of a file that no case could be read from, being built otherwise.
pub fn file_json(name: &str, machine: Machine, refused: &CaseRefusal) -> Json {
    Json::object([
        ("case", Json::text(name)),
        ("format", Json::number(FORMAT)),
        ("version", Json::text(VERSION)),
        ("machine", Json::text(machine.name())),
        ("refused", refused_json(refused)),
    ])
}

/// Number, place and rule, with the method and the instruction.
fn refused_json(refused: &CaseRefusal) -> Json {
    let line = |written: Option<(Place, Origin)>| written.map(|(place, _)| place);
    let (method, name, instruction, written) = match &refused.at {
        RefusalPlace::Method { method, name, header } => (Some(*method), Some(name), None, line(*header)),
        RefusalPlace::Instruction(site) => {
            (Some(site.method), Some(&site.method_name), Some(site.instruction), line(site.written))
        }
        RefusalPlace::Nowhere | RefusalPlace::Outcome(_) => (None, None, None, None),
        RefusalPlace::Text(at) => (None, None, None, Some(at.place)),
    };
    Json::object([
        ("number", Json::number(refused.refusal.number())),
        ("place", Json::number(refused.refusal.place)),
        ("rule", Json::text(&refused.rule)),
        ("method", Json::or_null(method, Json::number)),
        ("method_name", Json::or_null(name, Json::text)),
        ("instruction", Json::or_null(instruction, Json::number)),
        ("line", Json::or_null(written, |place| Json::number(place.line))),
        ("column", Json::or_null(written, |place| Json::number(place.column))),
    ])
}

fn run_keys(run: &Run) -> Vec<(&'static str, Json)> {
    let processes = run.configuration.processes.iter().enumerate();
    let faults = processes.filter_map(|(number, process)| match process.state {
        State::Stopped(fault) => {
            Some(Json::object([("process", Json::number(number)), ("fault", Json::number(fault.number()))]))
        }
        _ => None,
    });
    vec![
        ("end", Json::number(run.end.number())),
        ("end_text", Json::text(run.end)),
        ("entries_used", Json::number(run.entries)),
        ("lines_written", Json::number(run.lines.len())),
        ("outcomes_used", Json::number(run.outcomes)),
        ("faults", Json::list(faults)),
        ("processes_made", Json::number(run.configuration.processes.len())),
        ("qubits_made", Json::number(run.configuration.qubits)),
        ("channels_made", Json::number(run.configuration.channels)),
    ]
}

/// The trace, who holds what by it, and each process.
fn whole_keys(case: &Case, run: &Run) -> Vec<(&'static str, Json)> {
    let holders = Holders::by(&run.lines);
    let qubits = holders
        .qubits
        .iter()
        .map(|(qubit, holder)| Json::object([("qubit", Json::number(*qubit)), ("holder", Json::number(*holder))]));
    let ends = holders.ends.iter().map(|((channel, side), holder)| {
        let keys = [("channel", *channel), ("side", side.number()), ("holder", *holder)];
        Json::object(keys.map(|(key, number)| (key, Json::number(number))))
    });
    let processes = run.configuration.processes.iter().map(|process| process_json(case, process));
    vec![
        ("trace", Json::list(run.lines.iter().map(line_json))),
        ("qubit_holders", Json::list(qubits)),
        ("end_holders", Json::list(ends)),
        ("processes", Json::list(processes)),
    ]
}

/// The six columns, unused ones null, and what the line says.
fn line_json(line: &Line) -> Json {
    let [a, b, c] = line.columns().map(|column| Json::or_null(column, Json::number));
    Json::object([
        ("entry", Json::number(line.entry)),
        ("process", Json::number(line.process)),
        ("kind", Json::number(line.kind)),
        ("a", a),
        ("b", b),
        ("c", c),
        ("event", Json::or_null(line.event(), |event| Json::text(event.name()))),
    ])
}

fn process_json(case: &Case, process: &Process) -> Json {
    let (state, fault) = match process.state {
        State::Running => ("running", None),
        State::Finished => ("finished", None),
        State::Stopped(fault) => ("stopped", Some(fault.number())),
    };
    Json::object([
        ("state", Json::text(state)),
        ("fault", Json::or_null(fault, Json::number)),
        ("frames", Json::list(process.frames.iter().map(|frame| frame_json(case.code.as_ref(), frame)))),
    ])
}

fn frame_json(code: Option<&Code>, frame: &Frame) -> Json {
    let site: Option<Site> = code.and_then(|code| code.site(frame.place));
    let name = code.map(|code| code.method_name(frame.method));
    Json::object([
        ("method", Json::number(frame.method)),
        ("method_name", Json::or_null(name, Json::text)),
        ("instruction", Json::or_null(site, |site| Json::number(site.instruction))),
        ("table_instruction", Json::number(frame.place)),
        ("slots", Json::list(frame.slots.iter().map(value_json))),
        ("pending", Json::list(frame.pending.iter().map(value_json))),
    ])
}

/// Null where it is empty, a number, a boolean, or a reference in words.
fn value_json(value: &Value) -> Json {
    match value {
        Value::Empty => Json::Null,
        Value::Int(value) => Json::number(*value),
        Value::Bool(value) => Json::Bool(*value),
        _ => Json::text(value),
    }
}

/// A number that tells inputs apart: FNV-1a, 64 bits, over the bytes of the
/// table, the schedule, the outcomes and the trace's room where it is bounded,
/// each after its length.
pub fn digest(case: &Case, room: Option<usize>) -> String {
    let program: Vec<u8> = case.program.iter().flat_map(|word| word.to_le_bytes()).collect();
    let room: Vec<u8> = room.map(|lines| (lines as u64).to_le_bytes().to_vec()).unwrap_or_default();
    let mut hash = 0xcbf2_9ce4_8422_2325_u64;
    for part in [&program, &case.schedule, &case.outcomes, &room] {
        let length = (part.len() as u64).to_le_bytes();
        for byte in length.iter().chain(part) {
            hash = (hash ^ u64::from(*byte)).wrapping_mul(0x0100_0000_01b3);
        }
    }
    format!("{hash:016x}")
}

/// A trace with commas: a line of names, then the six columns and what the line
/// says; unused columns are empty.
pub fn csv(lines: &[Line]) -> String {
    let mut text = "entry,process,kind,a,b,c,event\n".to_string();
    for line in lines {
        let columns = line.columns().map(|column| column.map(|number| number.to_string()).unwrap_or_default());
        let event = line.event().map(|event| event.name()).unwrap_or_default();
        text += &format!("{},{},{},{},{event}\n", line.entry, line.process, line.kind, columns.join(","));
    }
    text
}
