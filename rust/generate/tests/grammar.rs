//! The place of 30 is that of the grammar's list of productions, and the two rules
//! beside the grammar are found once more, from the tree alone.

use std::collections::BTreeMap;

use generate::{text_case, TextCase};
use model::text::grammar::Grammar;
use model::text::read::{read, read_by, Rules, MOST_NESTING};
use model::text::token::{tokens, Kind as Sort};
use model::text::tree::{Block, Code, Id, Kind, Method, Statement, Tree};
use model::text::{Reason, TextRefusal};

/// The recogniser takes longer than the reader: longer texts are left out.
fn short_texts(seeds: std::ops::Range<u64>) -> impl Iterator<Item = (u64, Vec<u8>)> {
    let texts = seeds.map(|seed| {
        let TextCase { text, .. } = text_case(seed);
        (seed, text)
    });
    texts.filter(|(_, text)| tokens(text).len() <= 350)
}

#[test]
fn the_place_of_30_is_the_grammars() {
    let grammar = Grammar::new();
    let mut counts = BTreeMap::new();
    for (seed, text) in short_texts(10_000..11_500) {
        let recognised = grammar.recognise(&text);
        let answer = read(&text).map(|_| ());
        let same = match answer {
            Ok(()) => recognised.is_ok(),
            Err(refusal) if refusal.reason.is_grammar() => recognised == Err(refusal.place),
            // The first token of the body that is too deep may be wrong as well.
            Err(TextRefusal { reason: Reason::Nesting, place, .. }) => {
                recognised.map_or_else(|bad| bad >= place, |()| true)
            }
            Err(TextRefusal { place, .. }) => recognised.map_or_else(|bad| bad > place, |()| true),
        };
        assert!(same, "seed {seed}: {answer:?} and {recognised:?}\n{}", String::from_utf8_lossy(&text));
        *counts.entry(answer.err().map(|refusal| refusal.reason)).or_insert(0) += 1;
    }
    let reasons = [None, Some(Reason::Token), Some(Reason::Byte), Some(Reason::Stops)];
    assert!(reasons.iter().all(|reason| counts.get(reason).is_some_and(|count| *count > 10)), "{counts:?}");
}

/// Where the grammar is kept, 30 is the lowest place that breaks one of the two rules.
#[test]
fn the_rules_beside_the_grammar() {
    let without = Rules { nesting: 1_000, withends: false };
    let mut counts = BTreeMap::new();
    for seed in 10_000..13_000 {
        let text = text_case(seed).text;
        let Ok(tree) = read_by(&text, without) else { continue };
        let expected = broken(&tree).into_iter().min_by_key(|refusal| refusal.place);
        let answer = read(&text).err();
        assert_eq!(answer, expected, "seed {seed}: {}", String::from_utf8_lossy(&text));
        *counts.entry(answer.map(|refusal| refusal.reason)).or_insert(0) += 1;
    }
    let reasons = [None, Some(Reason::Nesting), Some(Reason::Withends)];
    assert!(reasons.iter().all(|reason| counts.get(reason).is_some_and(|count| *count > 10)), "{counts:?}");
}

/// Every place that breaks a rule.
fn broken(tree: &Tree) -> Vec<TextRefusal> {
    let mut rules = RuleScan { tree, withends: Vec::new(), found: Vec::new() };
    for Method { parameters, body, .. } in &tree.methods {
        rules.withends = vec![parameters.iter().map(|parameter| (parameter.name.bytes, false)).collect()];
        rules.block(body, 1);
    }
    rules.found
}

struct RuleScan<'t> {
    tree: &'t Tree<'t>,
    withends: Vec<BTreeMap<&'t [u8], bool>>,
    found: Vec<TextRefusal>,
}

impl<'t> RuleScan<'t> {
    fn too_deep(&mut self, depth: usize, statement: &Statement) {
        if depth > MOST_NESTING {
            self.found.push(TextRefusal::new(Reason::Nesting, statement.at));
        }
    }

    fn block(&mut self, block: &'t Block<'t>, depth: usize) {
        for variable in &block.variables {
            let innermost = self.withends.last_mut().expect("a block is open");
            innermost.entry(variable.name.bytes).or_insert(variable.withends);
        }
        for statement in &block.statements {
            if let Code::Block(inner) = &statement.kind {
                self.too_deep(depth + 1, statement);
                self.inner(inner, depth + 1);
            } else {
                self.statement(statement, depth);
            }
        }
    }

    fn inner(&mut self, block: &'t Block<'t>, depth: usize) {
        self.withends.push(BTreeMap::new());
        self.block(block, depth);
        self.withends.pop();
    }

    fn body(&mut self, body: &'t Statement<'t>, depth: usize) {
        self.too_deep(depth, body);
        match &body.kind {
            Code::Block(block) => self.inner(block, depth),
            _ => self.statement(body, depth),
        }
    }

    fn statement(&mut self, statement: &'t Statement<'t>, depth: usize) {
        match &statement.kind {
            Code::Skip | Code::Block(_) => {}
            Code::Assign(_, value) | Code::Evaluate(value) | Code::Return(value) => self.expression(*value),
            Code::Apply(_, arguments) | Code::Fork(_, arguments) => {
                arguments.iter().for_each(|argument| self.expression(*argument));
            }
            Code::Send(end, value) => {
                self.expression(*end);
                self.expression(*value);
            }
            Code::If { test, then, otherwise } => {
                self.expression(*test);
                self.body(then, depth + 1);
                otherwise.iter().for_each(|otherwise| self.body(otherwise, depth + 1));
            }
            Code::While { test, body } => {
                self.expression(*test);
                self.body(body, depth + 1);
            }
        }
    }

    fn expression(&mut self, root: Id) {
        for id in self.tree.postfix(root) {
            let Kind::Assign(name) = self.tree.expressions[id].kind else { continue };
            let known = self.withends.iter().rev().find_map(|block| block.get(name.bytes));
            if known == Some(&true) {
                self.found.push(TextRefusal::new(Reason::Withends, name.at));
            }
        }
    }
}

/// Tokens cover the text but for white space, and none could be longer.
#[test]
fn tokens_are_the_longest() {
    let word = |byte: u8| byte.is_ascii_alphanumeric() || byte == b'_';
    for seed in 13_000..15_000 {
        let text = text_case(seed).text;
        let mut end = 0;
        for token in tokens(&text) {
            assert!(text[end..token.at].iter().all(|byte| b" \t\n\r".contains(byte)), "seed {seed}: {token:?}");
            end = token.at + token.bytes.len();
            assert_eq!(&text[token.at..end], token.bytes);
            let next = text.get(end).copied().unwrap_or(b' ');
            let first = token.bytes.first().copied().unwrap_or(b' ');
            let sound = match token.kind {
                Sort::Name | Sort::Reserved => {
                    token.bytes.iter().all(|byte| word(*byte)) && !first.is_ascii_digit() && !word(next)
                }
                Sort::Number => token.bytes.iter().all(u8::is_ascii_digit) && !next.is_ascii_digit(),
                Sort::Mark if first == b'=' => token.bytes == b"==" || (token.bytes == b"=" && next != b'='),
                Sort::Mark => token.bytes.len() == 1 && b"(){}[],;+-<".contains(&first),
                Sort::Bad => token.bytes.len() == 1 && !word(first) && !b"(){}[],;+-=< \t\n\r".contains(&first),
                Sort::End => token.at == text.len(),
            };
            assert!(sound, "seed {seed}: {token:?}");
        }
    }
}
