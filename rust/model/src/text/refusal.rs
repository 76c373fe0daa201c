//! The refusals of a text: 30, 31 and 32, each with the reasons it can have.

use std::fmt;

/// Why a text is refused. The number is all that an answer says; the reason is
/// for tests and for readers.
#[derive(Clone, Copy, Debug, PartialEq, Eq, PartialOrd, Ord)]
pub enum Reason {
    /// A token with which no text of the grammar goes on.
    Token,
    /// The same, where the token is a byte that belongs to none.
    Byte,
    /// The text stops too early.
    Stops,
    /// A body or block of depth 33.
    Nesting,
    /// "A withends channel is assigned only as a statement, else 30."
    Withends,

    /// "a name is undeclared": a variable
    Variable,
    /// The same of a called or forked method, a gate in an expression too.
    Method,
    /// "declared twice in one block (parameters stand in the body's)"
    DeclaredTwice,
    /// "or twice as a method"
    MethodTwice,
    /// "called with a wrong argument count"
    Count,
    /// The same of a gate.
    GateCount,
    /// "a missing main is 31 at the text's end"
    NoMain,

    /// A 33rd method.
    Methods,
    /// Instructions beyond 4,096, counted in text order.
    Instructions,
    /// More than 8 parameters.
    Parameters,
    /// More than 16 slots.
    Slots,
    /// Main with a parameter or a return type.
    Main,
    /// A number above 32,767.
    Number,
    /// Question 4 says no to the method's code.
    Instruction,
    /// Question 5 says no to it.
    Types,
}

impl Reason {
    /// All of them, by their numbers.
    pub const ALL: [Reason; 20] = [
        Reason::Token,
        Reason::Byte,
        Reason::Stops,
        Reason::Nesting,
        Reason::Withends,
        Reason::Variable,
        Reason::Method,
        Reason::DeclaredTwice,
        Reason::MethodTwice,
        Reason::Count,
        Reason::GateCount,
        Reason::NoMain,
        Reason::Methods,
        Reason::Instructions,
        Reason::Parameters,
        Reason::Slots,
        Reason::Main,
        Reason::Number,
        Reason::Instruction,
        Reason::Types,
    ];

    /// Paper 1's number.
    pub fn number(self) -> u16 {
        match self {
            Reason::Token | Reason::Byte | Reason::Stops | Reason::Nesting | Reason::Withends => 30,
            Reason::Variable
            | Reason::Method
            | Reason::DeclaredTwice
            | Reason::MethodTwice
            | Reason::Count
            | Reason::GateCount
            | Reason::NoMain => 31,
            _ => 32,
        }
    }

    /// Whether the grammar alone gives this refusal.
    pub fn is_grammar(self) -> bool {
        matches!(self, Reason::Token | Reason::Byte | Reason::Stops)
    }
}

/// "A refusal gives number and place": the place is a "byte index (of a token's
/// start)".
#[derive(Clone, Copy, Debug, PartialEq, Eq, PartialOrd, Ord)]
pub struct TextRefusal {
    pub number: u16,
    pub place: usize,
    pub reason: Reason,
}

impl TextRefusal {
    pub fn new(reason: Reason, place: usize) -> TextRefusal {
        TextRefusal { number: reason.number(), place, reason }
    }
}

/// As the printing program prints a refusal.
impl fmt::Display for TextRefusal {
    fn fmt(&self, f: &mut fmt::Formatter) -> fmt::Result {
        write!(f, "refused {} {}", self.number, self.place)
    }
}
