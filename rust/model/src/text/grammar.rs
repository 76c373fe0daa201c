//! The grammar of document 003's appendix as a list of productions, "cut" as Paper
//! 1 says, and a recogniser (Earley's) that goes by the list alone. It knows
//! nothing of how the reader works, and the reader nothing of it: tests compare
//! the two.

use std::collections::{BTreeMap, BTreeSet};

use super::token::{tokens, Kind, Token};

/// One production a line. A word in quotation marks is a token; NAME is a word that
/// is not reserved, NUMBER a number; every other word is a nonterminal. Those that
/// end in +, * or ? stand for 003's repetitions and options.
///
/// Cut: "ASCII names, 01's types, + and - as operators, ==, <, .. StdBasis with one
/// variable in a measurement, no aliasfor yet". Calls and gates are written alike.
pub const PRODUCTIONS: [&str; 82] = [
    // A.1 Code
    "program ::= method+",
    "method+ ::= method",
    "method+ ::= method method+",
    "code ::= assignment ';'",
    "code ::= methodCall ';'",
    "code ::= quantumOp ';'",
    "code ::= measurement ';'",
    "code ::= fork ';'",
    "code ::= send ';'",
    "code ::= recv ';'",
    "code ::= return ';'",
    "code ::= block",
    "code ::= if",
    "code ::= while",
    "code ::= ';'",
    "methodCall ::= NAME '(' methodParams? ')'",
    "methodParams? ::=",
    "methodParams? ::= methodParams",
    "methodParams ::= expr furtherExpr*",
    "furtherExpr* ::=",
    "furtherExpr* ::= ',' expr furtherExpr*",
    "assignment ::= NAME '=' expr",
    "measurement ::= 'measure' '(' 'StdBasis' ',' NAME ')'",
    "expr ::= indivExpr opExpr?",
    "opExpr? ::=",
    "opExpr? ::= op expr",
    "expr ::= 'new' nonDupType '(' ')'",
    "indivExpr ::= value",
    "indivExpr ::= NAME",
    "indivExpr ::= '(' expr ')'",
    "indivExpr ::= recv",
    "indivExpr ::= assignment",
    "indivExpr ::= methodCall",
    "indivExpr ::= measurement",
    "value ::= NUMBER",
    "value ::= 'true'",
    "value ::= 'false'",
    "op ::= '+'",
    "op ::= '-'",
    "op ::= '=='",
    "op ::= '<'",
    "quantumOp ::= NAME '(' methodParams? ')'",
    // A.2 Block structure
    "method ::= methodHeader block",
    "block ::= '{' varDeclaration code* '}'",
    "code* ::=",
    "code* ::= code code*",
    "methodHeader ::= type NAME '(' methodDeclParamList? ')'",
    "methodDeclParamList? ::=",
    "methodDeclParamList? ::= methodDeclParam furtherParam*",
    "furtherParam* ::=",
    "furtherParam* ::= ',' methodDeclParam furtherParam*",
    "methodDeclParam ::= nonVoidType NAME",
    "varDeclaration ::=",
    "varDeclaration ::= oneVarDecl ';' varDeclaration",
    "oneVarDecl ::= nonVoidType NAME furtherName*",
    "furtherName* ::=",
    "furtherName* ::= ',' NAME furtherName*",
    "oneVarDecl ::= channelType NAME withends?",
    "withends? ::=",
    "withends? ::= 'withends' '[' NAME ',' NAME ']'",
    // A.3 Program flow
    "fork ::= 'fork' methodCall",
    "return ::= 'return' expr",
    // A.4 Conditionals and loops
    "if ::= 'if' '(' expr ')' code else?",
    "else? ::=",
    "else? ::= 'else' code",
    "while ::= 'while' '(' expr ')' code",
    // A.5 Communication
    "recv ::= 'recv' '(' expr ')'",
    "send ::= 'send' '(' expr ',' expr ')'",
    // A.6 Types
    "type ::= 'void'",
    "type ::= nonVoidType",
    "nonVoidType ::= dupType",
    "nonVoidType ::= nonDupType",
    "dupType ::= 'int'",
    "dupType ::= 'boolean'",
    "nonDupType ::= 'channelEnd' '[' carried ']'",
    "nonDupType ::= channelType",
    "nonDupType ::= qType",
    "channelType ::= 'channel' '[' carried ']'",
    "qType ::= 'qbit'",
    "carried ::= 'int'",
    "carried ::= 'boolean'",
    "carried ::= 'qbit'",
];

/// "The root of grammar is the nonterminal program." (003)
const ROOT: &str = "program";

/// A production, taken apart.
#[derive(Clone, Debug)]
struct Production {
    left: &'static str,
    right: Vec<&'static str>,
}

/// The grammar, with what the recogniser asks of it.
#[derive(Clone, Debug)]
pub struct Grammar {
    productions: Vec<Production>,
    of: BTreeMap<&'static str, Vec<usize>>,
    /// The nonterminals that can be empty.
    empty: BTreeSet<&'static str>,
}

impl Default for Grammar {
    fn default() -> Grammar {
        Grammar::new()
    }
}

impl Grammar {
    pub fn new() -> Grammar {
        let productions: Vec<Production> = PRODUCTIONS.iter().map(|line| production(line)).collect();
        let mut of: BTreeMap<&str, Vec<usize>> = BTreeMap::new();
        for (index, production) in productions.iter().enumerate() {
            of.entry(production.left).or_default().push(index);
        }
        let empty = productions.iter().filter(|production| production.right.is_empty());
        let empty = empty.map(|production| production.left).collect();
        Grammar { productions, of, empty }
    }

    /// The nonterminals that stand on a right side and have no production.
    pub fn undefined(&self) -> Vec<&'static str> {
        let used = self.productions.iter().flat_map(|production| &production.right);
        used.copied().filter(|symbol| !is_terminal(symbol) && !self.of.contains_key(symbol)).collect()
    }

    /// Whether the text is of the grammar; else the place of "the first token with
    /// which the text is no beginning of any text of the grammar" (readings, 9).
    pub fn recognise(&self, text: &[u8]) -> Result<(), usize> {
        let mut sets: Vec<Set> = vec![Set::default()];
        for production in &self.of[ROOT] {
            sets[0].add(Item { production: *production, dot: 0, origin: 0 });
        }
        for token in tokens(text) {
            let last = sets.len() - 1;
            self.complete_and_predict(&mut sets);
            if token.kind == Kind::End {
                return match self.accepts(&sets[last]) {
                    true => Ok(()),
                    false => Err(token.at),
                };
            }
            let next = self.scan(&sets[last], token);
            if next.items.is_empty() {
                return Err(token.at);
            }
            sets.push(next);
        }
        unreachable!("the last token is the text's end")
    }

    fn next_symbol(&self, item: Item) -> Option<&'static str> {
        self.productions[item.production].right.get(item.dot).copied()
    }

    fn accepts(&self, set: &Set) -> bool {
        let whole = |item: &Item| item.origin == 0 && self.productions[item.production].left == ROOT;
        set.items.iter().any(|item| whole(item) && self.next_symbol(*item).is_none())
    }

    /// Fills the last set up.
    fn complete_and_predict(&self, sets: &mut [Set]) {
        let last = sets.len() - 1;
        let mut index = 0;
        while let Some(item) = sets[last].items.get(index).copied() {
            match self.next_symbol(item) {
                None => self.complete(sets, item),
                Some(symbol) if !is_terminal(symbol) => self.predict(&mut sets[last], last, item, symbol),
                Some(_) => {}
            }
            index += 1;
        }
    }

    fn complete(&self, sets: &mut [Set], whole: Item) {
        let left = self.productions[whole.production].left;
        let waiting = sets[whole.origin].items.iter().filter(|item| self.next_symbol(**item) == Some(left));
        let advanced: Vec<Item> = waiting.map(|item| item.advanced()).collect();
        let last = sets.len() - 1;
        for item in advanced {
            sets[last].add(item);
        }
    }

    /// What can be empty is passed over at once.
    fn predict(&self, set: &mut Set, origin: usize, item: Item, symbol: &str) {
        for production in &self.of[symbol] {
            set.add(Item { production: *production, dot: 0, origin });
        }
        if self.empty.contains(symbol) {
            set.add(item.advanced());
        }
    }

    fn scan(&self, set: &Set, token: Token) -> Set {
        let mut next = Set::default();
        for item in &set.items {
            if self.next_symbol(*item).is_some_and(|symbol| is_token(symbol, token)) {
                next.add(item.advanced());
            }
        }
        next
    }
}

/// A production up to a dot, begun at a token.
#[derive(Clone, Copy, Debug, PartialEq, Eq, PartialOrd, Ord)]
struct Item {
    production: usize,
    dot: usize,
    origin: usize,
}

impl Item {
    fn advanced(self) -> Item {
        Item { dot: self.dot + 1, ..self }
    }
}

/// Items, each once, in the order in which they came.
#[derive(Clone, Debug, Default)]
struct Set {
    items: Vec<Item>,
    known: BTreeSet<Item>,
}

impl Set {
    fn add(&mut self, item: Item) {
        if self.known.insert(item) {
            self.items.push(item);
        }
    }
}

fn production(line: &'static str) -> Production {
    let mut words = line.split_whitespace();
    let left = words.next().expect("a production has a left side");
    assert_eq!(words.next(), Some("::="), "{line}");
    Production { left, right: words.collect() }
}

fn is_terminal(symbol: &str) -> bool {
    symbol.starts_with('\'') || symbol == "NAME" || symbol == "NUMBER"
}

fn is_token(symbol: &str, token: Token) -> bool {
    match symbol {
        "NAME" => token.kind == Kind::Name,
        "NUMBER" => token.kind == Kind::Number,
        _ => is_terminal(symbol) && token.is(symbol.trim_matches('\'')),
    }
}
