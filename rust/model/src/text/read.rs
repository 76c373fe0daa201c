//! From tokens to the tree, method by method; 30.
//!
//! Statements and blocks are nested to 32, so the functions that read them may
//! call each other. Each looks at the token it stands at and at no other, so the
//! first that no function expects is "the first token with which the text is no
//! beginning of any text of the grammar" (readings, 9).

use data::{CarriedType, Type};

use super::refusal::{Reason, TextRefusal};
use super::scope::Scopes;
use super::token::{tokens, Kind, Token};
use super::tree::{Block, Code, Expression, Id, Kind as What, Method, Name, Statement, Tree, Variable};

/// "nested to 32 (a method's body is 1; ..)"
pub const MOST_NESTING: usize = 32;

/// The two rules that Paper 1 puts beside the grammar.
#[derive(Clone, Copy, Debug, PartialEq, Eq)]
pub struct Rules {
    /// The deepest body or block.
    pub nesting: usize,
    /// "A withends channel is assigned only as a statement, else 30."
    pub withends: bool,
}

/// Paper 1's.
pub const PAPER_1: Rules = Rules { nesting: MOST_NESTING, withends: true };

/// The text, read: `program ::= method+`.
pub fn read(text: &[u8]) -> Result<Tree<'_>, TextRefusal> {
    read_by(text, PAPER_1)
}

/// The same by other rules beside the grammar, for comparing.
pub fn read_by(text: &[u8], rules: Rules) -> Result<Tree<'_>, TextRefusal> {
    let mut reader =
        Reader { tokens: tokens(text), position: 0, rules, withends: Scopes::new(), tree: Tree::new(text.len()) };
    loop {
        let method = reader.method()?;
        reader.tree.add(method);
        if reader.token().kind == Kind::End {
            return Ok(reader.tree);
        }
    }
}

/// The reader between two tokens.
pub struct Reader<'t> {
    tokens: Vec<Token<'t>>,
    position: usize,
    rules: Rules,
    /// Of each variable declared so far, whether it is a withends channel.
    withends: Scopes<'t, bool>,
    pub(super) tree: Tree<'t>,
}

impl<'t> Reader<'t> {
    // Tokens.

    /// The token it stands at; after the last one the text's end.
    pub(super) fn token(&self) -> Token<'t> {
        self.tokens[self.position]
    }

    /// The same, and goes on to the next. The end is never taken.
    pub(super) fn take(&mut self) -> Token<'t> {
        let token = self.token();
        self.position += 1;
        token
    }

    pub(super) fn stands_at(&self, wanted: &str) -> bool {
        self.token().is(wanted)
    }

    /// 30 at the token it stands at.
    pub(super) fn wrong<T>(&self) -> Result<T, TextRefusal> {
        let token = self.token();
        let reason = match token.kind {
            Kind::End => Reason::Stops,
            Kind::Bad => Reason::Byte,
            _ => Reason::Token,
        };
        Err(TextRefusal::new(reason, token.at))
    }

    /// A mark or word that has to stand here.
    pub(super) fn expect(&mut self, wanted: &str) -> Result<Token<'t>, TextRefusal> {
        match self.stands_at(wanted) {
            true => Ok(self.take()),
            false => self.wrong(),
        }
    }

    pub(super) fn name(&mut self) -> Result<Name<'t>, TextRefusal> {
        if self.token().kind != Kind::Name {
            return self.wrong();
        }
        let Token { at, bytes, .. } = self.take();
        Ok(Name { at, bytes })
    }

    /// A further expression of the tree.
    pub(super) fn add(&mut self, kind: What<'t>, parts: Vec<Id>) -> Id {
        self.tree.expressions.push(Expression { kind, parts });
        self.tree.expressions.len() - 1
    }

    // Types. "01's types"

    /// `nonVoidType`, where one starts here.
    fn value_type(&mut self) -> Result<Option<Type>, TextRefusal> {
        let kind = match self.token() {
            token if token.is("int") => Type::Int,
            token if token.is("boolean") => Type::Bool,
            _ => return self.thing_type(),
        };
        self.take();
        Ok(Some(kind))
    }

    /// `nonVoidType`, which has to start here.
    fn needed_type(&mut self) -> Result<Type, TextRefusal> {
        match self.value_type()? {
            Some(kind) => Ok(kind),
            None => self.wrong(),
        }
    }

    /// `nonDupType`, where one starts here.
    pub(super) fn thing_type(&mut self) -> Result<Option<Type>, TextRefusal> {
        if self.stands_at("qbit") {
            self.take();
            return Ok(Some(Type::Qubit));
        }
        let of: fn(CarriedType) -> Type = match self.token() {
            token if token.is("channel") => Type::Channel,
            token if token.is("channelEnd") => Type::End,
            _ => return Ok(None),
        };
        self.take();
        self.expect("[")?;
        let carried = self.carried()?;
        self.expect("]")?;
        Ok(Some(of(carried)))
    }

    /// "another type inside is 30 at it" (readings, 6)
    fn carried(&mut self) -> Result<CarriedType, TextRefusal> {
        let carried = match self.token() {
            token if token.is("int") => CarriedType::Int,
            token if token.is("boolean") => CarriedType::Bool,
            token if token.is("qbit") => CarriedType::Qubit,
            _ => return self.wrong(),
        };
        self.take();
        Ok(carried)
    }

    // Methods and declarations.

    /// `method ::= methodHeader block`, `methodHeader ::= type methodName (
    /// methodDeclParamList? )`
    fn method(&mut self) -> Result<Method<'t>, TextRefusal> {
        let returns = match self.stands_at("void") {
            true => {
                self.take();
                Type::None
            }
            false => self.needed_type()?,
        };
        let name = self.name()?;
        self.withends.open();
        let parameters = self.parameters()?;
        // "a method's body is 1"
        let body = self.block(1)?;
        Ok(Method { returns, name, parameters, body })
    }

    fn parameters(&mut self) -> Result<Vec<Variable<'t>>, TextRefusal> {
        let mut parameters = Vec::new();
        self.expect("(")?;
        while !(parameters.is_empty() && self.stands_at(")")) {
            let kind = self.needed_type()?;
            let name = self.name()?;
            parameters.push(self.declare(kind, name, false));
            if !self.stands_at(",") {
                break;
            }
            self.take();
        }
        self.expect(")")?;
        Ok(parameters)
    }

    fn declare(&mut self, kind: Type, name: Name<'t>, withends: bool) -> Variable<'t> {
        self.withends.declare(name.bytes, withends);
        Variable { kind, name, withends }
    }

    /// `varDeclaration ::= (oneVarDecl ;)*`, without aliasfor: "Declarations
    /// first in a block" (readings, 4).
    fn declarations(&mut self) -> Result<Vec<Variable<'t>>, TextRefusal> {
        let mut variables = Vec::new();
        while let Some(kind) = self.value_type()? {
            let first = self.name()?;
            match kind {
                Type::Channel(carried) if self.stands_at("withends") => {
                    variables.push(self.declare(kind, first, true));
                    variables.extend(self.ends(Type::End(carried))?);
                }
                _ => {
                    variables.push(self.declare(kind, first, false));
                    self.further_names(kind, &mut variables)?;
                }
            }
            self.expect(";")?;
        }
        Ok(variables)
    }

    fn further_names(&mut self, kind: Type, variables: &mut Vec<Variable<'t>>) -> Result<(), TextRefusal> {
        while self.stands_at(",") {
            self.take();
            let name = self.name()?;
            variables.push(self.declare(kind, name, false));
        }
        Ok(())
    }

    /// `withends [ variableName , variableName ]`
    fn ends(&mut self, kind: Type) -> Result<[Variable<'t>; 2], TextRefusal> {
        self.expect("withends")?;
        self.expect("[")?;
        let zero = self.name()?;
        let zero = self.declare(kind, zero, false);
        self.expect(",")?;
        let one = self.name()?;
        let one = self.declare(kind, one, false);
        self.expect("]")?;
        Ok([zero, one])
    }

    /// Whether the name is a withends channel, by "the scopes read so far"
    /// (readings, 11), and the rule is asked for.
    pub(super) fn is_withends(&self, name: Name) -> bool {
        self.rules.withends && self.withends.find(name.bytes) == Some(&true)
    }

    // Blocks and statements.

    /// `block ::= { varDeclaration code* }`, of this depth. The scope of a
    /// method's body is open already: "parameters stand in the body's".
    fn block(&mut self, depth: usize) -> Result<Block<'t>, TextRefusal> {
        self.expect("{")?;
        if depth > 1 {
            self.withends.open();
        }
        let variables = self.declarations()?;
        let mut statements = Vec::new();
        while !self.stands_at("}") {
            statements.push(self.statement(depth)?);
        }
        self.take();
        self.withends.close();
        Ok(Block { variables, statements })
    }

    /// 30 where a body or block of this depth starts and is too deep: "Depth 33:
    /// 30 at the first token of that body or block" (readings, 10).
    fn nesting(&self, depth: usize) -> Result<(), TextRefusal> {
        match depth > self.rules.nesting {
            true => Err(TextRefusal::new(Reason::Nesting, self.token().at)),
            false => Ok(()),
        }
    }

    /// `code`, standing at this depth.
    fn statement(&mut self, depth: usize) -> Result<Statement<'t>, TextRefusal> {
        let token = self.token();
        let kind = match token.bytes {
            b";" => {
                self.take();
                Code::Skip
            }
            b"{" => {
                self.nesting(depth + 1)?;
                Code::Block(self.block(depth + 1)?)
            }
            b"if" => self.branch(depth)?,
            b"while" => self.repetition(depth)?,
            _ => {
                let kind = self.plain_statement()?;
                self.expect(";")?;
                kind
            }
        };
        Ok(Statement { at: token.at, kind })
    }

    /// The body of an if, else or while: "a block or not, and a block that is
    /// such a body is not counted twice" (readings, 10).
    fn body(&mut self, depth: usize) -> Result<Box<Statement<'t>>, TextRefusal> {
        self.nesting(depth)?;
        let at = self.token().at;
        let body = match self.stands_at("{") {
            true => Statement { at, kind: Code::Block(self.block(depth)?) },
            false => self.statement(depth)?,
        };
        Ok(Box::new(body))
    }

    /// `if ( expr ) code ( else code)?`: "else goes to the nearest if" (readings,
    /// 4).
    fn branch(&mut self, depth: usize) -> Result<Code<'t>, TextRefusal> {
        self.expect("if")?;
        let test = self.bracketed()?;
        let then = self.body(depth + 1)?;
        let mut otherwise = None;
        if self.stands_at("else") {
            self.take();
            otherwise = Some(self.body(depth + 1)?);
        }
        Ok(Code::If { test, then, otherwise })
    }

    /// `while ( expr ) code`
    fn repetition(&mut self, depth: usize) -> Result<Code<'t>, TextRefusal> {
        self.expect("while")?;
        let test = self.bracketed()?;
        let body = self.body(depth + 1)?;
        Ok(Code::While { test, body })
    }

    fn bracketed(&mut self) -> Result<Id, TextRefusal> {
        self.expect("(")?;
        let inside = self.expression()?;
        self.expect(")")?;
        Ok(inside)
    }

    /// A statement that a `;` closes: "assignment, call or gate, measurement,
    /// recv, and no others" of expressions (readings, 4), fork, send, return.
    fn plain_statement(&mut self) -> Result<Code<'t>, TextRefusal> {
        match self.token() {
            token if token.kind == Kind::Name => self.named_statement(),
            token if token.is("measure") => Ok(Code::Evaluate(self.measurement()?)),
            token if token.is("recv") => Ok(Code::Evaluate(self.receiving()?)),
            token if token.is("fork") => {
                self.take();
                let name = self.name()?;
                Ok(Code::Fork(name, self.arguments()?))
            }
            token if token.is("send") => self.sending(),
            token if token.is("return") => {
                self.take();
                Ok(Code::Return(self.expression()?))
            }
            _ => self.wrong(),
        }
    }

    /// `variableName = expr` or `methodName ( methodParams? )`
    fn named_statement(&mut self) -> Result<Code<'t>, TextRefusal> {
        let name = self.name()?;
        if self.stands_at("=") {
            self.take();
            return Ok(Code::Assign(name, self.expression()?));
        }
        Ok(Code::Apply(name, self.arguments()?))
    }

    /// `( methodParams? )`
    fn arguments(&mut self) -> Result<Vec<Id>, TextRefusal> {
        let mut arguments = Vec::new();
        self.expect("(")?;
        while !(arguments.is_empty() && self.stands_at(")")) {
            arguments.push(self.expression()?);
            if !self.stands_at(",") {
                break;
            }
            self.take();
        }
        self.expect(")")?;
        Ok(arguments)
    }

    /// `recv ( expr )`
    fn receiving(&mut self) -> Result<Id, TextRefusal> {
        self.expect("recv")?;
        let end = self.bracketed()?;
        Ok(self.add(What::Receive, vec![end]))
    }

    /// `send ( expr , expr )`
    fn sending(&mut self) -> Result<Code<'t>, TextRefusal> {
        self.expect("send")?;
        self.expect("(")?;
        let end = self.expression()?;
        self.expect(",")?;
        let value = self.expression()?;
        self.expect(")")?;
        Ok(Code::Send(end, value))
    }
}
