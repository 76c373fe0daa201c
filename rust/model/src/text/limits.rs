//! 32: "when the table, translated as docs/ sets down, passes a limit of
//! questions 1 to 5 .. at the name of the first method in text order with which a
//! limit is passed"; and the table itself.

use data::program::{self, MOST_INSTRUCTIONS, MOST_METHODS};
use data::{Type, SLOTS};

use super::code::{translate, Translation};
use super::refusal::{Reason, TextRefusal};
use super::tree::{Method, Tree};
use crate::table::{self, Op, Program, Row, MOST_PARAMETERS};
use crate::typing::method_fault;

/// The table's words, or 32.
pub fn table(tree: &Tree) -> Result<Vec<u16>, TextRefusal> {
    let methods = tree.methods.iter().map(|method| translate(tree, method));
    let methods: Vec<Translation> = methods.collect();
    let mut instructions = 0;
    for (index, method) in tree.methods.iter().enumerate() {
        instructions += methods[index].code.len();
        let passed = size_passed(tree, method, index, &methods[index], instructions);
        if let Some(reason) = passed.or_else(|| question_passed(tree, index, &methods[index])) {
            return Err(TextRefusal::new(reason, method.name.at));
        }
    }
    let written = tree.order().into_iter().map(|method| written(&tree.methods[method], &methods[method]));
    Ok(program::table(&written.collect::<Vec<_>>()))
}

/// The limits of questions 1 to 3, and of a number's word. `instructions` counts
/// "up to and with it, in text order" (readings, 15).
fn size_passed(tree: &Tree, method: &Method, index: usize, made: &Translation, instructions: usize) -> Option<Reason> {
    let is_main = tree.method(b"main") == Some(index);
    let limits = [
        (index >= MOST_METHODS, Reason::Methods),
        (instructions > MOST_INSTRUCTIONS, Reason::Instructions),
        (method.parameters.len() > MOST_PARAMETERS, Reason::Parameters),
        (made.slots.len() > SLOTS, Reason::Slots),
        (is_main && !(method.parameters.is_empty() && method.returns == Type::None), Reason::Main),
        (made.large_number, Reason::Number),
    ];
    limits.into_iter().find(|(passed, _)| *passed).map(|(_, reason)| reason)
}

/// "question 4 or 5 says no to its code (the caller's fault is the caller's)"
/// (readings, 15): the other methods are there with their rows alone.
fn question_passed(tree: &Tree, index: usize, made: &Translation) -> Option<Reason> {
    let Some(code) = read_code(made) else {
        return Some(Reason::Instruction);
    };
    let methods = tree.order().into_iter().map(|other| {
        let method = &tree.methods[other];
        match other == index {
            true => table::Method { offset: 0, row: row(method, &made.slots), code: code.clone() },
            false => table::Method { offset: 0, row: signature(method), code: Vec::new() },
        }
    });
    let program = Program { methods: methods.collect() };
    method_fault(&program, &program.methods[tree.number(index)]).map(|_| Reason::Types)
}

/// Question 4: every op is listed. Slots are used, methods there and targets
/// inside by the way they were written.
fn read_code(made: &Translation) -> Option<Vec<Op>> {
    let code = made.code.iter().map(|(op, argument)| Op::read(*op, word(*argument)));
    code.collect()
}

fn row(method: &Method, slots: &[Type]) -> Row {
    let mut row = Row { return_type: method.returns, parameters: method.parameters.len(), slots: [Type::None; SLOTS] };
    row.slots[..slots.len()].copy_from_slice(slots);
    row
}

/// A method's row as a caller sees it. One with more parameters than a row has
/// slots is cut: a caller has passed the 8 pending values before it calls it.
fn signature(method: &Method) -> Row {
    let parameters: Vec<Type> = method.parameters.iter().map(|parameter| parameter.kind).take(SLOTS).collect();
    let mut row = row(method, &parameters);
    row.parameters = parameters.len();
    row
}

/// A method as plain numbers.
fn written(method: &Method, made: &Translation) -> program::Method {
    program::Method {
        return_type: method.returns.number(),
        parameters: word(method.parameters.len()),
        slots: made.slots.iter().map(|kind| kind.number()).collect(),
        code: made.code.iter().map(|(op, argument)| (*op, word(*argument))).collect(),
    }
}

/// A number of a method within the limits.
fn word(number: usize) -> u16 {
    u16::try_from(number).expect("the limits have been asked")
}
