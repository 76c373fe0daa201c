//! Expressions, read with a list of what is open instead of calls: a text may
//! hold a million brackets.
//!
//! `expr ::= indivExpr (op expr)? | new nonDupType ( )`: an operator takes all
//! that follows as its right side, so all of them "have one strength and group to
//! the right" (readings, 5).

use super::read::Reader;
use super::refusal::{Reason, TextRefusal};
use super::token::Kind as Sort;
use super::tree::{Id, Kind, Name, Operator};

/// What is open around the expression that is being read.
enum Open<'t> {
    /// `( E`
    Bracket,
    /// `E op F`, with E read.
    Right(Operator, Id),
    /// `x = E`, as an operand.
    Assign(Name<'t>),
    /// `f ( E , ..`, with the arguments before.
    Arguments(Name<'t>, Vec<Id>),
    /// `recv ( E`
    Receive,
}

/// What has been read.
enum Subexpression {
    /// An `indivExpr`: an operator may follow.
    Operand(Id),
    /// An `expr` that ends in `new T()`: "takes no operator behind it"
    /// (readings, 5).
    Whole(Id),
}

impl Subexpression {
    fn id(&self) -> Id {
        match self {
            Subexpression::Operand(id) | Subexpression::Whole(id) => *id,
        }
    }
}

/// How it goes on.
enum Continuation {
    /// A further expression starts.
    Start,
    /// What was open is closed, and makes this.
    Closed(Subexpression),
    /// Nothing is open any more.
    Done(Id),
}

impl<'t> Reader<'t> {
    /// `expr`
    pub(super) fn expression(&mut self) -> Result<Id, TextRefusal> {
        let mut open = Vec::new();
        loop {
            let Some(mut read) = self.start(&mut open)? else {
                continue;
            };
            loop {
                match self.go_on(&mut open, read)? {
                    Continuation::Start => break,
                    Continuation::Closed(closed) => read = closed,
                    Continuation::Done(id) => return Ok(id),
                }
            }
        }
    }

    /// The start of an expression: its first operand, or none where it opens
    /// something.
    fn start(&mut self, open: &mut Vec<Open<'t>>) -> Result<Option<Subexpression>, TextRefusal> {
        let token = self.token();
        let read = match token.bytes {
            _ if token.kind == Sort::Name => return self.start_with_name(open),
            _ if token.kind == Sort::Number => {
                self.take();
                Subexpression::Operand(self.add(Kind::Number(token.bytes), vec![]))
            }
            b"true" | b"false" => {
                self.take();
                Subexpression::Operand(self.add(Kind::Bool(token.is("true")), vec![]))
            }
            b"measure" => Subexpression::Operand(self.measurement()?),
            b"new" => Subexpression::Whole(self.allocation()?),
            b"(" => {
                self.take();
                open.push(Open::Bracket);
                return Ok(None);
            }
            b"recv" => {
                self.take();
                self.expect("(")?;
                open.push(Open::Receive);
                return Ok(None);
            }
            _ => return self.wrong(),
        };
        Ok(Some(read))
    }

    /// A variable, an assignment or a call.
    fn start_with_name(&mut self, open: &mut Vec<Open<'t>>) -> Result<Option<Subexpression>, TextRefusal> {
        let name = self.name()?;
        if self.stands_at("=") {
            // "30 at its name, as soon as `=` follows" (readings, 11)
            if self.is_withends(name) {
                return Err(TextRefusal::new(Reason::Withends, name.at));
            }
            self.take();
            open.push(Open::Assign(name));
            return Ok(None);
        }
        if !self.stands_at("(") {
            return Ok(Some(Subexpression::Operand(self.add(Kind::Variable(name), vec![]))));
        }
        self.take();
        if self.stands_at(")") {
            self.take();
            return Ok(Some(Subexpression::Operand(self.add(Kind::Call(name), vec![]))));
        }
        open.push(Open::Arguments(name, Vec::new()));
        Ok(None)
    }

    /// `measure ( StdBasis , variableName )`: "StdBasis with one variable in a
    /// measurement"
    pub(super) fn measurement(&mut self) -> Result<Id, TextRefusal> {
        self.expect("measure")?;
        self.expect("(")?;
        self.expect("StdBasis")?;
        self.expect(",")?;
        let name = self.name()?;
        self.expect(")")?;
        let variable = self.add(Kind::Variable(name), vec![]);
        Ok(self.add(Kind::Measure, vec![variable]))
    }

    /// `new nonDupType ( )`
    fn allocation(&mut self) -> Result<Id, TextRefusal> {
        self.expect("new")?;
        let Some(kind) = self.thing_type()? else {
            return self.wrong();
        };
        self.expect("(")?;
        self.expect(")")?;
        Ok(self.add(Kind::New(kind), vec![]))
    }

    /// What follows an operand or a whole expression.
    fn go_on(&mut self, open: &mut Vec<Open<'t>>, read: Subexpression) -> Result<Continuation, TextRefusal> {
        let Some(operator) = Operator::read(self.token().bytes) else {
            return self.close(open, read.id());
        };
        match read {
            Subexpression::Operand(left) => {
                self.take();
                open.push(Open::Right(operator, left));
                Ok(Continuation::Start)
            }
            Subexpression::Whole(id) => self.close_before_operator(open, id),
        }
    }

    /// An operator after `new T()` can only belong to what stands around an
    /// assignment that ends here: "an assignment of it inside an expression is an
    /// operand like any other" (readings, 5). The innermost one closes.
    fn close_before_operator(&mut self, open: &mut Vec<Open<'t>>, id: Id) -> Result<Continuation, TextRefusal> {
        match open.pop() {
            Some(Open::Right(operator, left)) => {
                let whole = self.add(Kind::Operate(operator), vec![left, id]);
                Ok(Continuation::Closed(Subexpression::Whole(whole)))
            }
            Some(Open::Assign(name)) => {
                let operand = self.add(Kind::Assign(name), vec![id]);
                Ok(Continuation::Closed(Subexpression::Operand(operand)))
            }
            _ => self.wrong(),
        }
    }

    /// No operator follows: what was opened last ends here, or goes on to its
    /// next argument.
    fn close(&mut self, open: &mut Vec<Open<'t>>, id: Id) -> Result<Continuation, TextRefusal> {
        let closed = match open.pop() {
            None => return Ok(Continuation::Done(id)),
            Some(Open::Right(operator, left)) => self.add(Kind::Operate(operator), vec![left, id]),
            Some(Open::Assign(name)) => self.add(Kind::Assign(name), vec![id]),
            Some(Open::Bracket) => {
                self.expect(")")?;
                id
            }
            Some(Open::Receive) => {
                self.expect(")")?;
                self.add(Kind::Receive, vec![id])
            }
            Some(Open::Arguments(name, mut arguments)) => {
                arguments.push(id);
                if self.stands_at(",") {
                    self.take();
                    open.push(Open::Arguments(name, arguments));
                    return Ok(Continuation::Start);
                }
                self.expect(")")?;
                self.add(Kind::Call(name), arguments)
            }
        };
        Ok(Continuation::Closed(Subexpression::Operand(closed)))
    }
}
