//! Question 5: "Read from first to last with types alone, does each method
//! find every operand of its type, hold at most 8 pending values, hold none
//! after DROP, CLEAR, RET, FORK, SEND, JUMP and JFALSE, none before a jump's
//! target, and close on RET or JUMP?"
//!
//! Unreachable code is read like any other.

use data::Type;

use crate::table::{Method, Op, Program, Row};

/// "hold at most 8 pending values"
pub const MOST_PENDING: usize = 8;

/// What question 5 found at fault.
#[derive(Clone, Copy, Debug, PartialEq, Eq, PartialOrd, Ord)]
pub enum TypeFaultKind {
    /// Something is pending before an instruction that a jump has as target.
    PendingAtTarget,
    /// Fewer values pending than the op takes.
    OperandMissing,
    /// An operand has another type.
    OperandType,
    /// A ninth pending value.
    TooManyPending,
    /// Something is pending after an op that must leave nothing.
    PendingAfter,
    /// The last instruction is neither RET nor JUMP.
    NotClosed,
}

/// A fault and its instruction, counted over the table.
#[derive(Clone, Copy, Debug, PartialEq, Eq)]
pub struct TypeFault {
    pub place: usize,
    pub why: TypeFaultKind,
}

/// The "first instruction at fault". Methods stand in the table's order, so
/// the first method with a fault has the lowest place.
pub fn first_fault(program: &Program) -> Option<TypeFault> {
    let faults = program.methods.iter();
    let mut faults = faults.filter_map(|method| method_fault(program, method));
    faults.next()
}

/// The first instruction at fault of one method.
pub fn method_fault(program: &Program, method: &Method) -> Option<TypeFault> {
    read_method(program, method).err()
}

/// Reads one method from first to last, up to its first fault.
fn read_method(program: &Program, method: &Method) -> Result<(), TypeFault> {
    let mut pending = Vec::new();
    for (index, op) in method.code.iter().enumerate() {
        let fault = |why| TypeFault { place: method.offset + index, why };
        if !pending.is_empty() && is_target(method, index) {
            return Err(fault(TypeFaultKind::PendingAtTarget));
        }
        read_instruction(program, &method.row, *op, &mut pending).map_err(fault)?;
        if index + 1 == method.code.len() && !closes(*op) {
            return Err(fault(TypeFaultKind::NotClosed));
        }
    }
    Ok(())
}

/// Whether any jump of the method, before or after, has this target.
fn is_target(method: &Method, index: usize) -> bool {
    method.code.iter().any(|op| op.target() == Some(index))
}

/// "close on RET or JUMP"
fn closes(op: Op) -> bool {
    matches!(op, Op::Return | Op::Jump(_))
}

/// Takes the operands off, puts the results on, looks at what is pending.
fn read_instruction(program: &Program, row: &Row, op: Op, pending: &mut Vec<Type>) -> Result<(), TypeFaultKind> {
    take_and_put(program, row, op, pending)?;
    if pending.len() > MOST_PENDING {
        return Err(TypeFaultKind::TooManyPending);
    }
    if leaves_nothing(op) && !pending.is_empty() {
        return Err(TypeFaultKind::PendingAfter);
    }
    Ok(())
}

/// "hold none after DROP, CLEAR, RET, FORK, SEND, JUMP and JFALSE"
fn leaves_nothing(op: Op) -> bool {
    matches!(op, Op::Drop | Op::Clear(_) | Op::Return | Op::Fork(_) | Op::Send | Op::Jump(_) | Op::JumpFalse(_))
}

/// The op's operands and results, as the table of ops gives them.
fn take_and_put(program: &Program, row: &Row, op: Op, pending: &mut Vec<Type>) -> Result<(), TypeFaultKind> {
    use Type::{Bool, Int, Qubit};
    match op {
        Op::Int(_) => put(pending, Int),
        Op::Bool(_) => put(pending, Bool),
        Op::Get(slot) => put(pending, row.slots[slot]),
        Op::Put(slot) => trade(pending, &[row.slots[slot]], row.slots[slot]),
        Op::Drop => take_any(pending).map(|_| ()),
        Op::Clear(_) | Op::Jump(_) => Ok(()),
        Op::NewQubit => put(pending, Qubit),
        Op::NewChannel(carried) => put(pending, Type::Channel(carried)),
        Op::End(_) => end(pending),
        Op::Gate(gate) if gate.takes_two() => take_all(pending, &[Qubit, Qubit]),
        Op::Gate(_) => take(pending, Qubit),
        Op::Measure => trade(pending, &[Qubit], Int),
        Op::Call(method) => call(pending, &program.methods[method].row),
        Op::Return => take_unless_void(pending, row.return_type),
        Op::Fork(method) => take_all(pending, program.methods[method].row.parameter_types()),
        Op::Send => send(pending),
        Op::Receive => receive(pending),
        Op::JumpFalse(_) => take(pending, Bool),
        Op::Add | Op::Sub => trade(pending, &[Int, Int], Int),
        Op::Equal | Op::Less => trade(pending, &[Int, Int], Bool),
        Op::Not => trade(pending, &[Bool], Bool),
    }
}

fn put(pending: &mut Vec<Type>, kind: Type) -> Result<(), TypeFaultKind> {
    pending.push(kind);
    Ok(())
}

fn take_any(pending: &mut Vec<Type>) -> Result<Type, TypeFaultKind> {
    pending.pop().ok_or(TypeFaultKind::OperandMissing)
}

fn take(pending: &mut Vec<Type>, wanted: Type) -> Result<(), TypeFaultKind> {
    if take_any(pending)? != wanted {
        return Err(TypeFaultKind::OperandType);
    }
    Ok(())
}

/// Takes operands off, "last on top".
fn take_all(pending: &mut Vec<Type>, wanted: &[Type]) -> Result<(), TypeFaultKind> {
    let mut from_top = wanted.iter().rev();
    from_top.try_for_each(|kind| take(pending, *kind))
}

fn trade(pending: &mut Vec<Type>, wanted: &[Type], result: Type) -> Result<(), TypeFaultKind> {
    take_all(pending, wanted)?;
    put(pending, result)
}

/// "return value off unless void"
fn take_unless_void(pending: &mut Vec<Type>, return_type: Type) -> Result<(), TypeFaultKind> {
    match return_type {
        Type::None => Ok(()),
        wanted => take(pending, wanted),
    }
}

/// "its P arguments off"; "its RET pushes a value unless void".
fn call(pending: &mut Vec<Type>, row: &Row) -> Result<(), TypeFaultKind> {
    take_all(pending, row.parameter_types())?;
    match row.return_type {
        Type::None => Ok(()),
        result => put(pending, result),
    }
}

/// "channel off, that end on"
fn end(pending: &mut Vec<Type>) -> Result<(), TypeFaultKind> {
    match take_any(pending)? {
        Type::Channel(carried) => put(pending, Type::End(carried)),
        _ => Err(TypeFaultKind::OperandType),
    }
}

/// "off: end, then value above it"
fn send(pending: &mut Vec<Type>) -> Result<(), TypeFaultKind> {
    let value = take_any(pending)?;
    match take_any(pending)? {
        Type::End(carried) if carried.as_type() == value => Ok(()),
        _ => Err(TypeFaultKind::OperandType),
    }
}

/// "end off, received value on"
fn receive(pending: &mut Vec<Type>) -> Result<(), TypeFaultKind> {
    match take_any(pending)? {
        Type::End(carried) => put(pending, carried.as_type()),
        _ => Err(TypeFaultKind::OperandType),
    }
}
