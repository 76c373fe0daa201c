//! A table back as text that assembles to the same words.

use data::program::Method;
use data::SLOTS;

use crate::asm::ops::{instruction_text, Op};
use crate::asm::types::{self, UNUSED};
use crate::error::Place;
use crate::names::{MethodNames, Scope};

/// Lines of numbers are cut before this column.
const WIDTH: usize = 72;
/// So many slots stand in a line.
const SLOTS_IN_LINE: usize = 4;
/// Instructions stand after so many blanks.
const INDENT: &str = "    ";

/// Methods as text, with the names made up for them and their places in it.
#[derive(Clone, Debug, PartialEq, Eq)]
pub struct Listing {
    /// Nothing where some method has more parameters than slots, which no text
    /// can say; the names have no places then.
    pub text: Option<String>,
    pub names: Vec<MethodNames>,
}

/// Lists methods under names that are made up.
pub fn listing(methods: &[Method]) -> Listing {
    listing_by(methods, made_up(methods))
}

/// Lists methods. What has no name is listed by its `raw` numbers. The lines are
/// the same whatever the names are.
pub fn listing_by(methods: &[Method], mut names: Vec<MethodNames>) -> Listing {
    if methods.iter().any(|method| count(method) > SLOTS) {
        return Listing { text: None, names };
    }
    let mut lines = Vec::new();
    for (number, method) in methods.iter().enumerate() {
        let scope = Scope { methods: &names, here: &names[number] };
        let written = list_method(method, scope, &mut lines);
        names[number].header = Some(written.header);
        names[number].places = written.places;
        lines.push(String::new());
    }
    let text = lines.iter().map(|line| format!("{line}\n")).collect();
    Listing { text: Some(text), names }
}

/// The sections of the schedule and of the outcomes.
pub fn list_inputs(schedule: &[u8], outcomes: &[u8]) -> String {
    format!("{}\n{}", list_numbers("schedule", schedule), list_numbers("outcomes", outcomes))
}

fn count(method: &Method) -> usize {
    usize::from(method.parameters)
}

/// Where a method's header and instructions were written.
struct Lines {
    header: Place,
    places: Vec<Place>,
}

fn list_method(method: &Method, scope: Scope, lines: &mut Vec<String>) -> Lines {
    let header = Place { line: lines.len() + 1, column: 1 };
    lines.extend(header_lines(method, scope.here));
    let mut places = Vec::new();
    for (instruction, index) in method.code.iter().zip(0..) {
        if let Some(label) = scope.label_name(index) {
            lines.push(format!("{label}:"));
        }
        places.push(Place { line: lines.len() + 1, column: INDENT.len() + 1 });
        lines.push(format!("{INDENT}{}", instruction_text(*instruction, scope)));
    }
    Lines { header, places }
}

/// The header, and the slots after the parameters up to the last used one.
fn header_lines(method: &Method, names: &MethodNames) -> Vec<String> {
    let slots: Vec<String> = (0..SLOTS).map(|slot| slot_text(method, names, slot)).collect();
    let used = method.slots.iter().rposition(|kind| *kind != 0);
    let used = used.map_or(0, |last| last + 1);
    let return_type = match method.return_type {
        0 => types::void(),
        kind => types::name(kind),
    };
    let parameters = slots[..count(method)].join(", ");
    let mut lines = vec![format!("method {return_type} {}({parameters})", names.name)];
    let locals = slots[..used].get(count(method)..).unwrap_or_default();
    lines.extend(locals.chunks(SLOTS_IN_LINE).map(|some| format!("{INDENT}slots {}", some.join(", "))));
    lines
}

fn slot_text(method: &Method, names: &MethodNames, slot: usize) -> String {
    match &names.slots[slot] {
        Some(name) => format!("{} {name}", types::name(method.slots[slot])),
        None => UNUSED.to_string(),
    }
}

/// The section's word, then the numbers in lines of some length.
fn list_numbers(section: &str, bytes: &[u8]) -> String {
    let mut text = format!("{section}\n");
    let mut line = String::new();
    for item in items(bytes) {
        if line.len() + item.len() + 1 > WIDTH {
            text += &format!("   {line}\n");
            line.clear();
        }
        line += &format!(" {item}");
    }
    if !line.is_empty() {
        text += &format!("   {line}\n");
    }
    text
}

/// Numbers as they are written, three equal ones or more as one item.
pub fn items(bytes: &[u8]) -> Vec<String> {
    let runs = bytes.chunk_by(|one, next| one == next);
    let items = runs.flat_map(|run| match run {
        [_] | [_, _] => run.iter().map(u8::to_string).collect(),
        _ => vec![format!("{}*{}", run[0], run.len())],
    });
    items.collect()
}

/// Names for a table without a text: main, m1, m2; s0 to s15; L and the
/// instruction's number for a jump's target.
fn made_up(methods: &[Method]) -> Vec<MethodNames> {
    let numbered = methods.iter().enumerate();
    let name = |(number, method): (usize, &Method)| MethodNames {
        name: match number {
            0 => "main".to_string(),
            _ => format!("m{number}"),
        },
        slots: slot_names(method),
        labels: label_names(method),
        ..MethodNames::default()
    };
    numbered.map(name).collect()
}

/// An unused slot has no name: no instruction can use it.
fn slot_names(method: &Method) -> Vec<Option<String>> {
    let slots = method.slots.iter().enumerate();
    let name = |(slot, kind): (usize, &u16)| (*kind != 0).then(|| format!("s{slot}"));
    slots.map(name).collect()
}

fn label_names(method: &Method) -> Vec<(String, u16)> {
    let jumps = method.code.iter();
    let jumps = jumps.filter(|(op, _)| Op::numbered(*op).is_some_and(Op::jumps));
    let targets = jumps.map(|(_, target)| *target);
    let inside = targets.filter(|target| usize::from(*target) < method.code.len());
    let mut inside: Vec<u16> = inside.collect();
    inside.sort_unstable();
    inside.dedup();
    let labels = inside.into_iter();
    labels.map(|target| (format!("L{target}"), target)).collect()
}
