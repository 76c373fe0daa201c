//! The rules of the questions, and their words.

use std::fmt;

use data::Type;

/// What an op wants in an operand's place.
#[derive(Clone, Copy, Debug, PartialEq, Eq)]
pub enum OperandKind {
    /// Any value.
    Any,
    /// Any channel.
    Channel,
    /// Any channel end.
    End,
    Type(Type),
}

impl fmt::Display for OperandKind {
    fn fmt(&self, f: &mut fmt::Formatter) -> fmt::Result {
        match self {
            OperandKind::Any => f.write_str("a value"),
            OperandKind::Channel => f.write_str("a channel"),
            OperandKind::End => f.write_str("a channel end"),
            OperandKind::Type(kind) => kind.fmt(f),
        }
    }
}

/// A rule that is broken, with what was found. Of question 1 on, in 01's order.
#[derive(Clone, Debug, PartialEq, Eq)]
pub enum Rule {
    // Question 1, the sizes.
    /// The table has not even M and N.
    NoSizes {
        words: usize,
    },
    MethodCount {
        methods: usize,
        most: usize,
    },
    InstructionCount {
        instructions: usize,
        most: usize,
    },
    TableLength {
        words: usize,
        needed: usize,
    },
    // Question 2, the pairs.
    /// A method does not start where the one before ends.
    Start {
        offset: usize,
        expected: usize,
    },
    NoInstruction,
    /// Every pair keeps its rule, but the lengths do not sum to N.
    Sum {
        sum: usize,
        instructions: usize,
    },
    // Question 3, the rows.
    ReturnType {
        word: u16,
    },
    ParameterCount {
        parameters: usize,
        most: usize,
    },
    SlotType {
        slot: usize,
        word: u16,
    },
    UnusedParameter {
        slot: usize,
    },
    MainParameters {
        parameters: usize,
    },
    MainReturns {
        kind: Type,
    },
    // Question 4, the instructions.
    UnlistedOp,
    /// The argument is none of those that the op takes.
    Argument {
        expected: &'static str,
    },
    NoSuchSlot {
        slot: usize,
        slots: usize,
    },
    UnusedSlot {
        slot: usize,
    },
    NoSuchMethod {
        method: usize,
        methods: usize,
    },
    /// A jump's target is outside its method.
    Target {
        target: usize,
        length: usize,
    },
    // Question 5, the types.
    /// Something is pending before an instruction that a jump has as target.
    PendingAtTarget {
        pending: Vec<Type>,
    },
    TooFew {
        wanted: usize,
        pending: usize,
    },
    /// The operand so far below the top is of another type.
    Operand {
        wanted: OperandKind,
        below: usize,
        found: Type,
    },
    /// An argument of CALL or FORK, counted from 1, is of another type.
    CallArgument {
        wanted: Type,
        number: usize,
        of: usize,
        found: Type,
    },
    /// The value to be sent does not fit the end.
    Sent {
        carried: Type,
        found: Type,
    },
    TooMany {
        most: usize,
    },
    /// Something is pending after an op that must leave nothing.
    PendingAfter {
        pending: Vec<Type>,
    },
    NotClosed,
    // Questions 6 to 8.
    Outcome {
        byte: u8,
        highest: u8,
    },
    ScheduleLength {
        entries: usize,
        most: usize,
    },
    WorkLength {
        words: usize,
        least: usize,
    },
}

impl Rule {
    /// The rule in words; `instruction` is how the instruction is written, of
    /// questions 4 and 5.
    pub fn words(&self, instruction: &str) -> String {
        match self {
            Rule::NoSizes { words } => format!("the table has {}; M and N alone are 2", counted(*words, "word")),
            Rule::MethodCount { methods, most } => format!("M, the number of methods, is {methods}, not 1 to {most}"),
            Rule::InstructionCount { instructions, most } => {
                format!("N, the number of instructions, is {instructions}, not 1 to {most}")
            }
            Rule::TableLength { words, needed } => {
                format!("the table has {}, for its M and N it must have {needed}", counted(*words, "word"))
            }
            Rule::Start { offset, expected } => {
                format!(
                    "the method is said to start at instruction {offset}, not {expected}, where the one before ends"
                )
            }
            Rule::NoInstruction => "the method has no instruction".to_string(),
            Rule::Sum { sum, instructions } => {
                format!("the methods' lengths sum to {sum}, the table has N = {instructions} instructions")
            }
            Rule::ReturnType { word } => format!("the return type is {word}, which is no type"),
            Rule::ParameterCount { parameters, most } => format!("it has {parameters} parameters, not 0 to {most}"),
            Rule::SlotType { slot, word } => format!("the type of slot {slot} is {word}, which is no type"),
            Rule::UnusedParameter { slot } => format!("parameter {slot} has type 0, that of an unused slot"),
            Rule::MainParameters { parameters } => {
                format!("main has {}, it must have none", counted(*parameters, "parameter"))
            }
            Rule::MainReturns { kind } => format!("main returns {kind}, it must be void"),
            Rule::UnlistedOp => format!("{instruction}: no op has this number"),
            Rule::Argument { expected } => format!("{instruction}: the argument must be {expected}"),
            Rule::NoSuchSlot { slot, slots } => {
                format!("{instruction}: there is no slot {slot}, slots are 0 to {}", slots - 1)
            }
            Rule::UnusedSlot { slot } => format!("{instruction}: slot {slot} is unused, it has type 0"),
            Rule::NoSuchMethod { method, methods } => {
                format!("{instruction}: there is no method {method}, methods are 0 to {}", methods - 1)
            }
            Rule::Target { target, length } => {
                format!("{instruction}: instruction {target} is outside the method, which has 0 to {}", length - 1)
            }
            Rule::PendingAtTarget { pending } => {
                format!("{instruction} is a jump's target, where nothing may be pending: {}", are(pending))
            }
            Rule::TooFew { wanted, pending } => {
                format!("{instruction} wants {}, {pending} pending", counted(*wanted, "value"))
            }
            Rule::Operand { wanted, below: 0, found } => format!("{instruction} wants {wanted}, the top is {found}"),
            Rule::Operand { wanted, below: 1, found } => {
                format!("{instruction} wants {wanted} below the top, {found} is there")
            }
            Rule::Operand { wanted, below, found } => {
                format!("{instruction} wants {wanted} {below} below the top, {found} is there")
            }
            Rule::CallArgument { wanted, number, of, found } => {
                format!("{instruction} wants {wanted} as argument {number} of {of}, {found} is there")
            }
            Rule::Sent { carried, found } => {
                format!("{instruction} over end({carried}) wants {carried}, the top is {found}")
            }
            Rule::TooMany { most } => {
                format!("{instruction} leaves {} values pending, at most {most} may be", most + 1)
            }
            Rule::PendingAfter { pending } => {
                format!("nothing may be pending after {instruction}: {}", are(pending))
            }
            Rule::NotClosed => {
                format!("the method's last instruction is {instruction}, it must be RET or JUMP")
            }
            Rule::Outcome { byte, highest } => format!("the outcome is {byte}, not 0 to {highest}"),
            Rule::ScheduleLength { entries, most } => {
                format!("the schedule has {entries} entries, at most {most} are run")
            }
            Rule::WorkLength { words, least } => {
                format!("the work store has {}, it must have {least}", counted(*words, "word"))
            }
        }
    }
}

fn counted(number: usize, what: &str) -> String {
    match number {
        1 => format!("1 {what}"),
        _ => format!("{number} {what}s"),
    }
}

/// The types that are pending, the lowest first.
fn are(pending: &[Type]) -> String {
    let names: Vec<String> = pending.iter().map(Type::to_string).collect();
    match names.len() {
        1 => format!("{} is", names[0]),
        _ => format!("{} are", names.join(", ")),
    }
}
