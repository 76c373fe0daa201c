//! What a text can bring about.

use data::{End, Fault};
use model::text::tree::Operator;
use model::text::Reason;

/// Something that a text can bring about. Ops, gates, types, kinds, faults and ends
/// are named by their numbers.
#[derive(Clone, Copy, Debug, PartialEq, Eq, PartialOrd, Ord)]
pub enum TextMark {
    Accepted,
    Refused(Reason),
    /// A refusal at a place other than 0, by its number.
    FurtherOn(u16),
    /// What a text that is not refused by 30 has in it.
    Has(Part),
    /// A type of a variable, and of what is returned.
    Declared(u16),
    Returned(u16),
    /// A limit that a text reaches and does not pass.
    Reached(Limit),
    /// A limit that a text passes by one and is refused for.
    PassedByOne(Limit),
    /// An expression in 40 brackets or more, in a text that is accepted or not.
    DeepBrackets(bool),
    /// An op that was executed.
    Op(u16),
    Gate(u16),
    NewChannel(u16),
    EndSide(u16),
    JumpOnFalse(bool),
    /// A line of this kind.
    Line(u16),
    Fault(u16),
    End(u16),
    /// A value of a half-evaluated expression was emptied.
    EmptiedPending,
}

/// A limit of Paper 1 and of the table.
#[derive(Clone, Copy, Debug, PartialEq, Eq, PartialOrd, Ord)]
pub enum Limit {
    Methods,
    Instructions,
    Parameters,
    Slots,
    Number,
    Nesting,
    Pending,
}

/// A part of a text.
#[derive(Clone, Copy, Debug, PartialEq, Eq, PartialOrd, Ord)]
pub enum Part {
    Skip,
    Assign,
    AssignWithends,
    /// A call or a gate.
    Apply,
    CallVoid,
    CallDropped,
    GateCall,
    GateNamedMethod,
    LaterMethod,
    MeasureStatement,
    ReceiveStatement,
    Fork,
    Send,
    ReturnValue,
    ReturnVoid,
    If,
    Else,
    ElseIf,
    While,
    BodyWithoutBlock,
    EmptyBlock,
    BlockWithVariables,
    Shadowing,
    Withends,
    MainNotFirst,
    NoReturnAtEnd,
    Number,
    Bool,
    Variable,
    AssignInside,
    Operate(Operator),
    CallInside,
    Measure,
    Receive,
    NewQubit,
    NewChannel,
    NewEnd,
    NewAsOperand,
    AssignedNewAsOperand,
}

impl Part {
    pub const ALL: [Part; 42] = [
        Part::Skip,
        Part::Assign,
        Part::AssignWithends,
        Part::Apply,
        Part::CallVoid,
        Part::CallDropped,
        Part::GateCall,
        Part::GateNamedMethod,
        Part::LaterMethod,
        Part::MeasureStatement,
        Part::ReceiveStatement,
        Part::Fork,
        Part::Send,
        Part::ReturnValue,
        Part::ReturnVoid,
        Part::If,
        Part::Else,
        Part::ElseIf,
        Part::While,
        Part::BodyWithoutBlock,
        Part::EmptyBlock,
        Part::BlockWithVariables,
        Part::Shadowing,
        Part::Withends,
        Part::MainNotFirst,
        Part::NoReturnAtEnd,
        Part::Number,
        Part::Bool,
        Part::Variable,
        Part::AssignInside,
        Part::Operate(Operator::Plus),
        Part::Operate(Operator::Minus),
        Part::Operate(Operator::Equals),
        Part::Operate(Operator::Less),
        Part::CallInside,
        Part::Measure,
        Part::Receive,
        Part::NewQubit,
        Part::NewChannel,
        Part::NewEnd,
        Part::NewAsOperand,
        Part::AssignedNewAsOperand,
    ];
}

impl Limit {
    pub const ALL: [Limit; 7] = [
        Limit::Methods,
        Limit::Instructions,
        Limit::Parameters,
        Limit::Slots,
        Limit::Number,
        Limit::Nesting,
        Limit::Pending,
    ];
}

/// Every mark that texts can have. NOT (op 23) comes from no text.
pub fn all_marks() -> Vec<TextMark> {
    let types = [1, 2, 3, 17, 18, 19, 33, 34, 35];
    let mut marks = vec![TextMark::Accepted, TextMark::EmptiedPending];
    marks.extend(Reason::ALL.map(TextMark::Refused));
    marks.extend([30, 31, 32].map(TextMark::FurtherOn));
    marks.extend(Part::ALL.map(TextMark::Has));
    marks.extend(types.map(TextMark::Declared));
    marks.extend(types.map(TextMark::Returned));
    marks.push(TextMark::Returned(0));
    marks.extend(Limit::ALL.map(TextMark::Reached));
    marks.extend(Limit::ALL.map(TextMark::PassedByOne));
    marks.extend([false, true].map(TextMark::DeepBrackets));
    marks.extend((1..=22).map(TextMark::Op));
    marks.extend((1..=8).map(TextMark::Gate));
    marks.extend((1..=3).map(TextMark::NewChannel));
    marks.extend([0, 1].map(TextMark::EndSide));
    marks.extend([false, true].map(TextMark::JumpOnFalse));
    marks.extend((1..=10).map(TextMark::Line));
    marks.extend(Fault::ALL.map(|fault| TextMark::Fault(fault.number())));
    marks.extend(End::ALL.map(|end| TextMark::End(end.number())));
    marks
}
