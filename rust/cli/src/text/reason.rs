//! What is wrong with a refused text, in words. Number and place are the
//! machine's. What is said of them goes by the tokens around the place, and by
//! what the machine answers for the text with a part of it changed: which tokens
//! could stand at the place, and which statement it is that a method is refused
//! for.

use data::program::{MOST_INSTRUCTIONS, MOST_METHODS};
use data::{Gate, Question, Refusal, SLOTS};

use crate::text::outline::{closing, outline, starts_statement, Method, Unit};
use crate::text::place::TextPlace;
use crate::text::token::{tokens, Kind, Token, MARKS, RESERVED, TYPES};

/// What a machine answers for a text: its refusal, or none.
pub type Ask<'m> = &'m dyn Fn(&[u8]) -> Option<Refusal>;

/// In a longer text it is not asked which tokens could stand at a place.
const MOST_ASKED: usize = 100_000;
/// So many characters of a statement are shown.
const SHOWN: usize = 60;
const MOST_PARAMETERS: usize = 8;
const LARGEST_NUMBER: u64 = 32_767;

/// The words for a refusal of a text by 30, 31 or 32.
pub fn reason(text: &[u8], refusal: Refusal, ask: Ask) -> String {
    let tokens = tokens(text);
    let index = tokens.iter().position(|token| token.at >= refusal.place);
    let found = index.filter(|index| tokens[*index].at == refusal.place);
    match (refusal.question, found) {
        (Question::Grammar, _) => grammar(text, &tokens, index, refusal.place, ask),
        (Question::Names, None) => "there is no method main".to_string(),
        (Question::Names, Some(index)) => names(text, &tokens, index),
        (_, _) => limits(text, refusal, ask),
    }
}

// 30

fn grammar(text: &[u8], tokens: &[Token], index: Option<usize>, place: usize, ask: Ask) -> String {
    let token = index.map(|index| tokens[index]);
    let index = index.unwrap_or(tokens.len());
    if let Some(token) = token.filter(|_| is_assigned_inside(tokens, index)) {
        return format!("`{}` was declared withends, and is assigned to as a statement alone", token.text());
    }
    // At depth 33 every token is refused.
    let expected = expected(text, place, ask);
    let is_deep = token.is_some_and(may_start_statement) || (expected.is_none() && place <= MOST_ASKED);
    if is_deep && starts_statement(tokens, index) {
        return "a body or block of depth 33 starts here, and 32 is the greatest depth".to_string();
    }
    match (token, expected) {
        (None, Some(what)) => format!("{what}, found the text's end"),
        (None, None) => "the text stops too early".to_string(),
        (Some(token), _) if token.kind == Kind::Other => {
            format!("the byte {} belongs to no word, number or mark", token.bytes[0])
        }
        (Some(token), Some(what)) => format!("{what}, found `{}`", shortened(&token.text())),
        (Some(token), None) => format!("`{}` cannot stand here", shortened(&token.text())),
    }
}

/// Whether a name stands where an expression starts, with an assignment's mark
/// after it. The grammar has this, so what refuses it is its declaration.
fn is_assigned_inside(tokens: &[Token], index: usize) -> bool {
    let is_assigned = tokens[index].kind == Kind::Name && tokens.get(index + 1).is_some_and(|next| next.is("="));
    let Some(before) = index.checked_sub(1).filter(|_| is_assigned) else { return false };
    match tokens[before] {
        token if token.is_one_of(&["=", "+", "-", "==", "<", "return"]) => true,
        token if token.is("(") => {
            let word = before.checked_sub(1).map(|index| tokens[index]);
            // The brackets of a parameter list, of a measurement and of what is made new hold no expression.
            let is_new = word.is_some_and(|word| word.is("]") || word.is_one_of(&TYPES));
            is_in_body(tokens, index) && !is_new && !word.is_some_and(|word| word.is("measure"))
        }
        token => token.is(",") && is_in_body(tokens, index),
    }
}

/// Whether a token stands in a method's body.
fn is_in_body(tokens: &[Token], index: usize) -> bool {
    let count = |mark: &str| tokens[..index].iter().filter(|token| token.is(mark)).count();
    count("{") > count("}")
}

fn may_start_statement(token: Token) -> bool {
    let words = ["{", ";", "measure", "recv", "fork", "send", "return", "if", "while"];
    token.kind == Kind::Name || token.is_one_of(&words)
}

/// What could stand at a place, with `expected` before it: the tokens with which
/// the machine does not refuse the text there. None where nothing could, or the
/// text is long.
fn expected(text: &[u8], place: usize, ask: Ask) -> Option<String> {
    if place > MOST_ASKED {
        return None;
    }
    let fits = |token: &str| {
        let begun = [&text[..place], b" ", token.as_bytes()].concat();
        ask(&begun) != Some(Refusal::new(Question::Grammar, place + 1))
    };
    let named = [("name", "a name"), ("0", "a number"), ("StdBasis", "`StdBasis`")];
    let mut left: Vec<&str> = named.iter().map(|(token, _)| *token).chain(MARKS).chain(RESERVED).collect();
    left.retain(|token| fits(token));
    let mut words = Vec::new();
    for (what, group) in GROUPS {
        if group.iter().all(|token| left.contains(token)) {
            words.push(what.to_string());
            left.retain(|token| !group.contains(token));
        }
    }
    for token in left {
        let name = named.iter().find(|(one, _)| *one == token).map(|(_, name)| name.to_string());
        // A name may be StdBasis too.
        if token != "StdBasis" || !words.iter().any(|word| word == "a name") {
            words.push(name.unwrap_or_else(|| format!("`{token}`")));
        }
    }
    let last = words.pop()?;
    Some(match words.is_empty() {
        true => format!("expected {last}"),
        false => format!("expected {} or {last}", words.join(", ")),
    })
}

/// Tokens that have a word together; a token goes to the first of its groups.
const GROUPS: [(&str, &[&str]); 4] = [
    ("a type", &TYPES),
    ("a statement", &["name", "StdBasis", "{", ";", "measure", "recv", "fork", "send", "return", "if", "while"]),
    ("an expression", &["name", "StdBasis", "0", "(", "true", "false", "measure", "recv", "new"]),
    ("an operator", &["+", "-", "==", "<"]),
];

// 31

fn names(text: &[u8], tokens: &[Token], index: usize) -> String {
    let methods = outline(text);
    let token = tokens[index];
    let name = token.text();
    let line = |token: &Token| TextPlace::new(text, token.at).place.line;
    let same = methods.iter().find(|method| method.name.bytes == token.bytes);
    if let Some(first) = methods.iter().position(|method| method.name.at == token.at).and(same) {
        return format!("there is a method `{name}` already, in line {}", line(&first.name));
    }
    if tokens.get(index + 1).is_some_and(|next| next.is("(")) {
        return called(tokens, index, same);
    }
    let declared = methods.iter().flat_map(|method| method.parameters.iter().chain(&method.variables));
    let declared: Vec<_> = declared.filter(|variable| variable.name.bytes == token.bytes).collect();
    let this = declared.iter().find(|variable| variable.name.at == token.at);
    let first = this.and_then(|this| declared.iter().find(|one| one.block == this.block));
    match first {
        Some(first) => {
            let line = line(&first.name);
            format!("`{name}` is declared already in this block, in line {line}")
        }
        None => format!("no variable `{name}` is declared here"),
    }
}

/// A call of a method that is not there, or with a wrong number of arguments.
fn called(tokens: &[Token], index: usize, method: Option<&Method>) -> String {
    let name = tokens[index].text();
    let count = arguments(tokens, index + 1);
    let takes = |number: usize| {
        let arguments = if number == 1 { "argument" } else { "arguments" };
        format!("`{name}` takes {number} {arguments}, {count} stand here")
    };
    if let Some(method) = method {
        return takes(method.parameters.len());
    }
    match Gate::ALL.iter().find(|gate| gate.to_string() == name) {
        Some(gate) if starts_statement(tokens, index) => takes(1 + usize::from(gate.takes_two())),
        Some(_) => format!("`{name}` is a gate; in an expression and after fork only methods are meant"),
        None if starts_statement(tokens, index) => format!("there is no method and no gate `{name}`"),
        None => format!("there is no method `{name}`"),
    }
}

/// How many arguments stand in the brackets that open at an index.
fn arguments(tokens: &[Token], open: usize) -> usize {
    let close = closing(tokens, open).unwrap_or(tokens.len());
    let mut depth = 0;
    let mut commas = 0;
    for token in &tokens[open + 1..close] {
        match token {
            token if token.is("(") => depth += 1,
            token if token.is(")") => depth -= 1,
            token => commas += usize::from(depth == 0 && token.is(",")),
        }
    }
    if close == open + 1 {
        0
    } else {
        commas + 1
    }
}

// 32

fn limits(text: &[u8], refusal: Refusal, ask: Ask) -> String {
    let methods = outline(text);
    let Some(index) = methods.iter().position(|method| method.name.at == refusal.place) else {
        return "the table passes a limit with this method".to_string();
    };
    let method = &methods[index];
    let is_main = method.name.is("main");
    let (parameters, slots) = (method.parameters.len(), method.slots());
    if index >= MOST_METHODS {
        format!("it is method {} of the text, and a table has at most {MOST_METHODS}", index + 1)
    } else if parameters > MOST_PARAMETERS {
        format!("it has {parameters} parameters, at most {MOST_PARAMETERS}")
    } else if slots > SLOTS {
        let hole = if method.is_void { "" } else { " and one for what it returns" };
        format!("it has {slots} slots, at most {SLOTS}: its parameters and all its variables{hole}")
    } else if is_main && parameters > 0 {
        "main has to be without parameters".to_string()
    } else if is_main && !method.is_void {
        "main has to be void".to_string()
    } else {
        of_a_unit(text, method, refusal, ask)
    }
}

/// The first statement or condition with which the method is refused. Each is
/// evaluated by itself, so with all others left out it is refused too, unless it
/// is the number of instructions that is too large.
fn of_a_unit(text: &[u8], method: &Method, refusal: Refusal, ask: Ask) -> String {
    let many = format!("the instructions of the methods up to and with it are more than {MOST_INSTRUCTIONS}");
    let is_refused = |keeps: &dyn Fn(usize) -> bool| ask(&with(text, method, keeps)) == Some(refusal);
    if is_refused(&|_| false) {
        return many;
    }
    // With the first `low` of them it is accepted, with the first `high` it is refused.
    let (mut low, mut high) = (0, method.units.len());
    while low + 1 < high {
        let middle = (low + high) / 2;
        if is_refused(&|unit| unit < middle) {
            high = middle;
        } else {
            low = middle;
        }
    }
    let Some(unit) = high.checked_sub(1).and_then(|last| method.units.get(last)) else { return many };
    if !is_refused(&|other| other + 1 == high) {
        return many;
    }
    let bytes = &text[unit.bytes().clone()];
    let place = TextPlace::new(text, unit.bytes().start).words();
    format!("in {place}, `{}`: {}", shortened(&String::from_utf8_lossy(bytes)), wrong(bytes))
}

/// The text with only some of a method's units: no statement in place of the
/// others, and `true` for a condition.
fn with(text: &[u8], method: &Method, keeps: &dyn Fn(usize) -> bool) -> Vec<u8> {
    let mut left = Vec::new();
    let mut from = 0;
    for (_, unit) in method.units.iter().enumerate().filter(|(number, _)| !keeps(*number)) {
        left.extend(&text[from..unit.bytes().start]);
        if matches!(unit, Unit::Condition(_)) {
            left.extend(b" true ");
        }
        from = unit.bytes().end;
    }
    left.extend(&text[from..]);
    left
}

/// What is wrong in a statement or a condition.
fn wrong(bytes: &[u8]) -> String {
    let tokens = tokens(bytes);
    let is_large = |token: &&Token| {
        let number = token.text().parse::<u64>();
        token.kind == Kind::Number && number.map_or(true, |number| number > LARGEST_NUMBER)
    };
    if let Some(number) = tokens.iter().find(is_large) {
        return format!("{} is above {LARGEST_NUMBER}, the largest number", shortened(&number.text()));
    }
    if tokens.windows(2).any(|two| two[0].is("new") && two[1].is("channelEnd")) {
        return "no op makes a channel end by itself".to_string();
    }
    "a value is missing or has another type, or more than 8 are pending".to_string()
}

/// The beginning of a passage, in one line.
fn shortened(text: &str) -> String {
    let words: Vec<&str> = text.split_whitespace().collect();
    let line = words.join(" ");
    match line.char_indices().nth(SHOWN) {
        Some((end, _)) => format!("{}...", &line[..end]),
        None => line,
    }
}
