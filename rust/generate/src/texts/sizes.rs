//! How far a text goes towards each limit, counted on its tree.

use data::Type;
use model::text::code::translate;
use model::text::token::{tokens, Kind as Sort};
use model::text::tree::{Block, Code, Expression, Id, Kind, Method, Statement, Tree};

use super::mark::Limit;

impl Limit {
    /// The papers' limit.
    pub fn most(self) -> usize {
        match self {
            Limit::Methods | Limit::Nesting => 32,
            Limit::Instructions => 4_096,
            Limit::Parameters | Limit::Pending => 8,
            Limit::Slots => 16,
            Limit::Number => 32_767,
        }
    }
}

/// The largest size of each sort in a tree without undeclared names.
pub fn sizes(tree: &Tree) -> Vec<(Limit, usize)> {
    let methods = || tree.methods.iter();
    let largest = |size: &dyn Fn(&Method) -> usize| methods().map(size).max().unwrap_or(0);
    vec![
        (Limit::Methods, tree.methods.len()),
        (Limit::Instructions, methods().map(|method| translate(tree, method).code.len()).sum()),
        (Limit::Parameters, largest(&|method| method.parameters.len())),
        (Limit::Slots, largest(&|method| translate(tree, method).slots.len())),
        (Limit::Number, tree.expressions.iter().map(number).max().unwrap_or(0)),
        (Limit::Nesting, largest(&|method| depth_of_block(&method.body, 1))),
        (Limit::Pending, most_pending(tree)),
    ]
}

fn number(expression: &Expression) -> usize {
    let Kind::Number(digits) = expression.kind else { return 0 };
    let text = String::from_utf8_lossy(digits);
    text.parse().unwrap_or(usize::MAX)
}

/// The most values that wait at once while an expression is evaluated: each operand waits
/// while those after it are evaluated.
fn most_pending(tree: &Tree) -> usize {
    let mut most = vec![0; tree.expressions.len()];
    // An expression stands after its parts.
    for (id, expression) in tree.expressions.iter().enumerate() {
        let parts = expression.parts.iter().enumerate();
        let waiting = parts.map(|(before, part): (usize, &Id)| before + most[*part]).max();
        most[id] = waiting.unwrap_or(0).max(usize::from(has_value(tree, expression)));
    }
    most.into_iter().max().unwrap_or(0)
}

fn has_value(tree: &Tree, expression: &Expression) -> bool {
    match expression.kind {
        Kind::Call(name) => tree.method(name.bytes).is_some_and(|method| tree.methods[method].returns != Type::None),
        _ => true,
    }
}

/// The depth of the deepest body or block in a block of this depth, by the words of
/// Paper 1 and apart from the reader.
pub fn depth_of_block(block: &Block, depth: usize) -> usize {
    let inside = block.statements.iter().map(|statement| match &statement.kind {
        Code::Block(block) => depth_of_block(block, depth + 1),
        _ => depth_of_bodies(statement, depth),
    });
    inside.max().unwrap_or(depth).max(depth)
}

/// The same of a statement that stands at this depth.
fn depth_of_bodies(statement: &Statement, depth: usize) -> usize {
    let body = |body: &Statement| match &body.kind {
        Code::Block(block) => depth_of_block(block, depth + 1),
        _ => depth_of_bodies(body, depth + 1),
    };
    match &statement.kind {
        Code::If { then, otherwise, .. } => body(then).max(otherwise.as_deref().map_or(0, body)),
        Code::While { body: inside, .. } => body(inside),
        _ => depth,
    }
}

/// How many round brackets are open at once.
pub fn brackets(text: &[u8]) -> usize {
    let mut open: usize = 0;
    let mut most = 0;
    for token in tokens(text).iter().filter(|token| token.kind == Sort::Mark) {
        match token.bytes {
            b"(" => open += 1,
            b")" => open = open.saturating_sub(1),
            _ => {}
        }
        most = most.max(open);
    }
    most
}
