//! A table with the names of the text that it was translated from.

use data::program::Method;

use crate::code::Code;
use crate::text::outline::{self, outline};

/// What the slot is called that a method's value would stand in, and never
/// does.
const HOLE: &str = "hole";

/// The code of a text's table: main first, the others in text order. Names that
/// stand for two variables of a method get a number.
pub fn code(text: &[u8], methods: Vec<Method>) -> Code {
    let mut code = Code::of_table(methods);
    let mut outlined = outline(text);
    if let Some(main) = outlined.iter().position(|method| method.name.is("main")) {
        outlined[..=main].rotate_right(1);
    }
    for ((method, names), row) in outlined.iter().zip(&mut code.names).zip(&code.methods) {
        let used = row.slots.iter().filter(|kind| **kind != 0).count();
        if used == method.slots() {
            names.name = method.name.text();
            let slots = slots(method).into_iter().map(Some);
            names.slots = slots.chain(std::iter::repeat(None)).take(row.slots.len()).collect();
        }
    }
    code
}

/// The names of a method's slots, each once.
fn slots(method: &outline::Method) -> Vec<String> {
    let declared = method.parameters.iter().chain(&method.variables);
    let mut names: Vec<String> = declared.map(|variable| variable.name.text()).collect();
    if !method.is_void {
        names.push(HOLE.to_string());
    }
    for index in 1..names.len() {
        let mut name = names[index].clone();
        let mut number = 1;
        while names[..index].contains(&name) || (number > 1 && names[index + 1..].contains(&name)) {
            number += 1;
            name = format!("{}_{number}", names[index]);
        }
        names[index] = name;
    }
    names
}
