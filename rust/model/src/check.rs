//! "The questions": eight of them, "put in this order; a no gives the
//! number, with the place in brackets". They stand for any content of any
//! length.

use data::{Question, Refusal, Type, SLOTS, WORK_WORDS};

use crate::table::{
    instruction_place, pair_place, row_place, table_words, Method, Op, Program, Row, Words, MOST_INSTRUCTIONS,
    MOST_METHODS, MOST_PARAMETERS,
};
use crate::typing;

/// "Has the schedule at most 65,535 bytes?"
pub const MOST_ENTRIES: usize = 65_535;
/// "Is each outcome byte 0 or 1?" Paper 3: "Outcome byte 2 is now allowed and
/// means no click".
pub const HIGHEST_OUTCOME: u8 = 2;

/// Puts all eight questions in their order. `work_len` counts words.
pub fn check(program: &[u16], schedule: &[u8], outcomes: &[u8], work_len: usize) -> Result<Program, Refusal> {
    let program = read_table(program)?;
    question_5_types(&program)?;
    question_6_outcomes(outcomes)?;
    question_7_schedule(schedule)?;
    question_8_work(work_len)?;
    Ok(program)
}

/// Questions 1 to 4: whether the words are a table, read as one.
pub fn read_table(program: &[u16]) -> Result<Program, Refusal> {
    let words = Words(program);
    let sizes = question_1_sizes(words)?;
    let spans = question_2_pairs(words, sizes)?;
    let rows = question_3_rows(words, sizes)?;
    let code = question_4_instructions(words, sizes, &spans, &rows)?;
    let methods = spans.iter().zip(rows).zip(code);
    let methods = methods.map(|((span, row), code)| Method { offset: span.offset, row, code });
    Ok(Program { methods: methods.collect() })
}

/// M and N.
#[derive(Clone, Copy, Debug)]
struct Sizes {
    methods: usize,
    instructions: usize,
}

/// "Is M in range, N in range and the length exactly 2 + 20M + 2N words?"
/// Fewer than two words have no M and N, which read as 0: out of range.
fn question_1_sizes(words: Words) -> Result<Sizes, Refusal> {
    let methods = usize::from(words.at(0));
    let instructions = usize::from(words.at(1));
    let sound = (1..=MOST_METHODS).contains(&methods)
        && (1..=MOST_INSTRUCTIONS).contains(&instructions)
        && words.count() == table_words(methods, instructions);
    if !sound {
        return Err(Refusal::new(Question::Sizes, 0));
    }
    Ok(Sizes { methods, instructions })
}

/// A method's pair (offset, length), in instructions.
#[derive(Clone, Copy, Debug)]
struct Span {
    offset: usize,
    length: usize,
}

/// "Do the pairs keep their rule?" Each starts where the one before ends,
/// the first at 0, and has at least one instruction. "A wrong sum alone
/// counts against the last."
fn question_2_pairs(words: Words, sizes: Sizes) -> Result<Vec<Span>, Refusal> {
    let mut spans = Vec::new();
    let mut end = 0;
    for method in 0..sizes.methods {
        let place = pair_place(method);
        let offset = usize::from(words.at(place));
        let length = usize::from(words.at(place + 1));
        if offset != end || length == 0 {
            return Err(Refusal::new(Question::Pairs, method));
        }
        end = offset + length;
        spans.push(Span { offset, length });
    }
    if end != sizes.instructions {
        return Err(Refusal::new(Question::Pairs, sizes.methods - 1));
    }
    Ok(spans)
}

/// "Do the rows keep theirs?"
fn question_3_rows(words: Words, sizes: Sizes) -> Result<Vec<Row>, Refusal> {
    let read = |method| {
        let row = read_row(words, row_place(sizes.methods, method));
        row.filter(|row| method != 0 || main_row_is_right(row)).ok_or(Refusal::new(Question::Rows, method))
    };
    (0..sizes.methods).map(read).collect()
}

/// Reads a row; none where a type is not listed, P is above 8 or a parameter
/// has type 0.
fn read_row(words: Words, place: usize) -> Option<Row> {
    let return_type = Type::read(words.at(place))?;
    let parameters = usize::from(words.at(place + 1));
    if parameters > MOST_PARAMETERS {
        return None;
    }
    let mut slots = [Type::None; SLOTS];
    for (slot, kind) in slots.iter_mut().enumerate() {
        *kind = Type::read(words.at(place + 2 + slot))?;
    }
    let row = Row { return_type, parameters, slots };
    // "Parameters have no type 0."
    let full = !row.parameter_types().contains(&Type::None);
    full.then_some(row)
}

/// "Method 0 is main: P is 0, return type 0."
fn main_row_is_right(row: &Row) -> bool {
    row.parameters == 0 && row.return_type == Type::None
}

/// "Is every op listed, its argument in range, its slot used, its target
/// inside its own method?" The place is "counted over the table".
fn question_4_instructions(words: Words, sizes: Sizes, spans: &[Span], rows: &[Row]) -> Result<Vec<Vec<Op>>, Refusal> {
    let read = |(span, row): (&Span, &Row)| {
        let code = (span.offset..span.offset + span.length).map(|index| {
            let place = instruction_place(sizes.methods, index);
            Op::read(words.at(place), words.at(place + 1))
                .filter(|op| argument_fits(*op, sizes.methods, span.length, row))
                .ok_or(Refusal::new(Question::Instructions, index))
        });
        code.collect()
    };
    spans.iter().zip(rows).map(read).collect()
}

/// The part of question 4 that depends on the program: the slot is used, the
/// method is there, the target is inside.
fn argument_fits(op: Op, methods: usize, length: usize, row: &Row) -> bool {
    let slot_used = |slot| slot < SLOTS && row.slots[slot] != Type::None;
    op.slot().is_none_or(slot_used)
        && op.method().is_none_or(|method| method < methods)
        && op.target().is_none_or(|target| target < length)
}

/// Question 5, read in `typing`.
fn question_5_types(program: &Program) -> Result<(), Refusal> {
    match typing::first_fault(program) {
        Some(fault) => Err(Refusal::new(Question::Types, fault.place)),
        None => Ok(()),
    }
}

/// "Is each outcome byte 0 or 1? 6 (its index)" Paper 3: "Question 6 and case
/// P12 move to byte 3."
fn question_6_outcomes(outcomes: &[u8]) -> Result<(), Refusal> {
    let wrong = outcomes.iter().position(|byte| *byte > HIGHEST_OUTCOME);
    match wrong {
        Some(index) => Err(Refusal::new(Question::Outcomes, index)),
        None => Ok(()),
    }
}

/// "Has the schedule at most 65,535 bytes? 7 (0)"
fn question_7_schedule(schedule: &[u8]) -> Result<(), Refusal> {
    if schedule.len() > MOST_ENTRIES {
        return Err(Refusal::new(Question::Schedule, 0));
    }
    Ok(())
}

/// "Has the work store at least 8,192 words of 32 bits? 8 (0)" Paper 7: "the
/// work store grows to 8,256 words and question 8 says so".
fn question_8_work(work_len: usize) -> Result<(), Refusal> {
    if work_len < WORK_WORDS {
        return Err(Refusal::new(Question::WorkStore, 0));
    }
    Ok(())
}
