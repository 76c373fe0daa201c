//! Questions 1 to 4: sizes, pairs, rows, instructions.

use data::program::{op, Method, MOST_INSTRUCTIONS, MOST_METHODS};
use data::{CarriedType, Gate, Question, Type, SLOTS};

use crate::reason::rule::Rule;
use crate::reason::{types, Reason};

/// The most parameters of a method.
const MOST_PARAMETERS: usize = 8;
/// Words of a row: return type, parameter count, slots.
const ROW: usize = 2 + SLOTS;

/// Why a table is refused.
pub fn reason(words: &[u16]) -> Option<Reason> {
    match methods(words) {
        Err(reason) => Some(reason),
        Ok(methods) => {
            rows_reason(&methods).or_else(|| instructions_reason(&methods)).or_else(|| types::reason(&methods))
        }
    }
}

/// The methods of a table that passes questions 1 and 2, which say where each
/// method starts.
pub fn methods(words: &[u16]) -> Result<Vec<Method>, Reason> {
    let (methods, instructions) = sizes(words).map_err(|rule| Reason::new(Question::Sizes, 0, rule))?;
    let (pairs, rest) = words[2..].split_at(2 * methods);
    let (rows, code) = rest.split_at(ROW * methods);
    let lengths = lengths(pairs, instructions)?;
    let mut code = code.chunks_exact(2).map(|two| (two[0], two[1]));
    let rows = rows.chunks_exact(ROW).zip(lengths);
    let methods = rows.map(|(row, length)| Method {
        return_type: row[0],
        parameters: row[1],
        slots: row[2..].to_vec(),
        code: code.by_ref().take(length).collect(),
    });
    Ok(methods.collect())
}

/// M and N, where the length agrees with them.
fn sizes(words: &[u16]) -> Result<(usize, usize), Rule> {
    let [methods, instructions, ..] = words else {
        return Err(Rule::NoSizes { words: words.len() });
    };
    let (methods, instructions) = (usize::from(*methods), usize::from(*instructions));
    if !(1..=MOST_METHODS).contains(&methods) {
        return Err(Rule::MethodCount { methods, most: MOST_METHODS });
    }
    if !(1..=MOST_INSTRUCTIONS).contains(&instructions) {
        return Err(Rule::InstructionCount { instructions, most: MOST_INSTRUCTIONS });
    }
    let needed = 2 + (2 + ROW) * methods + 2 * instructions;
    match words.len() == needed {
        true => Ok((methods, instructions)),
        false => Err(Rule::TableLength { words: words.len(), needed }),
    }
}

/// The methods' lengths.
fn lengths(pairs: &[u16], instructions: usize) -> Result<Vec<usize>, Reason> {
    let mut lengths = Vec::new();
    let mut end = 0;
    for (method, pair) in pairs.chunks_exact(2).enumerate() {
        let (offset, length) = (usize::from(pair[0]), usize::from(pair[1]));
        if offset != end {
            return Err(Reason::new(Question::Pairs, method, Rule::Start { offset, expected: end }));
        }
        if length == 0 {
            return Err(Reason::new(Question::Pairs, method, Rule::NoInstruction));
        }
        end += length;
        lengths.push(length);
    }
    match end == instructions {
        true => Ok(lengths),
        false => Err(Reason::new(Question::Pairs, lengths.len() - 1, Rule::Sum { sum: end, instructions })),
    }
}

fn rows_reason(methods: &[Method]) -> Option<Reason> {
    let mut rows = methods.iter().enumerate();
    rows.find_map(|(number, method)| {
        let rule = row_rule(number, method)?;
        Some(Reason::new(Question::Rows, number, rule))
    })
}

/// The rule that a method's row breaks.
fn row_rule(number: usize, method: &Method) -> Option<Rule> {
    let Some(returned) = Type::read(method.return_type) else {
        return Some(Rule::ReturnType { word: method.return_type });
    };
    let parameters = usize::from(method.parameters);
    if parameters > MOST_PARAMETERS {
        return Some(Rule::ParameterCount { parameters, most: MOST_PARAMETERS });
    }
    if let Some(slot) = method.slots.iter().position(|word| Type::read(*word).is_none()) {
        return Some(Rule::SlotType { slot, word: method.slots[slot] });
    }
    if let Some(slot) = method.slots[..parameters].iter().position(|word| *word == 0) {
        return Some(Rule::UnusedParameter { slot });
    }
    match (number, parameters, returned) {
        (0, 0, Type::None) => None,
        (0, 0, kind) => Some(Rule::MainReturns { kind }),
        (0, _, _) => Some(Rule::MainParameters { parameters }),
        _ => None,
    }
}

fn instructions_reason(methods: &[Method]) -> Option<Reason> {
    let code = methods.iter().flat_map(|method| method.code.iter().map(move |one| (method, *one)));
    let mut code = code.enumerate();
    code.find_map(|(place, (method, instruction))| {
        let rule = instruction_rule(methods, method, instruction)?;
        Some(Reason::of_instruction(Question::Instructions, place, instruction, rule))
    })
}

/// The rule that an instruction breaks by its op and argument.
fn instruction_rule(methods: &[Method], method: &Method, (number, argument): (u16, u16)) -> Option<Rule> {
    if op::name(number).is_none() {
        return Some(Rule::UnlistedOp);
    }
    let index = usize::from(argument);
    let unless = |kept: bool, rule: Rule| (!kept).then_some(rule);
    match number {
        op::INT => None,
        op::BOOL => unless(argument <= 1, Rule::Argument { expected: "0 or 1" }),
        op::GET | op::PUT | op::CLEAR => slot_rule(method, index),
        op::NEWC => {
            unless(CarriedType::read(argument).is_some(), Rule::Argument { expected: "1, 2 or 3, what it carries" })
        }
        op::END => unless(argument <= 1, Rule::Argument { expected: "0 or 1, the side" }),
        op::GATE => unless(Gate::read(argument).is_some(), Rule::Argument { expected: "a gate, 1 to 8" }),
        op::CALL | op::FORK => {
            unless(index < methods.len(), Rule::NoSuchMethod { method: index, methods: methods.len() })
        }
        op::JUMP | op::JFALSE => {
            let length = method.code.len();
            unless(index < length, Rule::Target { target: index, length })
        }
        _ => unless(argument == 0, Rule::Argument { expected: "0" }),
    }
}

fn slot_rule(method: &Method, slot: usize) -> Option<Rule> {
    match method.slots.get(slot) {
        None => Some(Rule::NoSuchSlot { slot, slots: SLOTS }),
        Some(0) => Some(Rule::UnusedSlot { slot }),
        Some(_) => None,
    }
}
