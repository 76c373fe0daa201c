//! LanQ texts with what they are answered (Paper 1): minimal ones, from texts.txt
//! beside this crate's source, whose head says how a record is written; and those of
//! the repository's examples.

use std::collections::BTreeMap;
use std::fs;
use std::path::Path;

use crate::program::Method;

/// A minimal text.
#[derive(Clone, Debug, PartialEq, Eq)]
pub struct Record {
    /// The point of the readings that it is about.
    pub point: usize,
    /// What it shows.
    pub why: &'static str,
    pub text: Vec<u8>,
    pub answer: Expectation,
}

/// What a text is answered.
#[derive(Clone, Debug, PartialEq, Eq)]
pub enum Expectation {
    Refused {
        number: u16,
        place: usize,
    },
    /// The methods of its table.
    Methods(Vec<Method>),
    /// A table that is not written out.
    Accepted,
}

/// All records, in the file's order.
///
/// # Panics
/// Where the file is not written as its head says.
pub fn records() -> Vec<Record> {
    let file = include_str!("../texts.txt");
    let parts = file.split("\n\n").skip(1);
    parts.map(record).collect()
}

fn record(part: &'static str) -> Record {
    let mut record = Record { point: 0, why: "", text: Vec::new(), answer: Expectation::Accepted };
    for line in part.lines() {
        let (key, rest) = line.split_once(' ').unwrap_or((line, ""));
        match key {
            "point" => record.point = number(rest),
            "why" => record.why = rest,
            "text" => record.text = bytes(&repeated(rest)),
            "refused" => record.answer = refused(rest),
            "method" => record.answer = with_method(record.answer, method(rest)),
            "accepted" => {}
            _ => panic!("no line of a record: {line}"),
        }
    }
    record
}

fn number<T: std::str::FromStr>(word: &str) -> T {
    let parsed = word.parse().ok();
    parsed.unwrap_or_else(|| panic!("no number: {word}"))
}

fn numbers(words: &str) -> Vec<u16> {
    words.split_whitespace().map(number).collect()
}

fn refused(rest: &str) -> Expectation {
    let (what, place) = rest.split_once(' ').expect("number and place");
    Expectation::Refused { number: number(what), place: number(place) }
}

fn with_method(answer: Expectation, method: Method) -> Expectation {
    match answer {
        Expectation::Methods(mut methods) => {
            methods.push(method);
            Expectation::Methods(methods)
        }
        _ => Expectation::Methods(vec![method]),
    }
}

/// `return type and parameter count | types | op argument, ..`
fn method(rest: &str) -> Method {
    let parts: Vec<&str> = rest.split('|').collect();
    let [head, slots, code] = parts[..] else { panic!("no method: {rest}") };
    let head = numbers(head);
    let pairs = code.split(',').map(numbers);
    Method {
        return_type: head[0],
        parameters: head[1],
        slots: numbers(slots),
        code: pairs.map(|pair| (pair[0], pair[1])).collect(),
    }
}

/// `\<N:..\>` written N times, with 1 to N for `\#` in it.
fn repeated(text: &str) -> String {
    let mut out = String::new();
    let mut rest = text;
    while let Some((before, after)) = rest.split_once("\\<") {
        let (count, after) = after.split_once(':').expect("a count");
        let (body, after) = after.split_once("\\>").expect("an end of the repetition");
        out += before;
        for index in 1..=number(count) {
            let index: usize = index;
            out += &body.replace("\\#", &index.to_string());
        }
        rest = after;
    }
    out + rest
}

/// The bytes that `\n`, `\t`, `\r` and `\xNN` stand for.
fn bytes(text: &str) -> Vec<u8> {
    let mut out = Vec::new();
    let mut rest = text.bytes();
    while let Some(byte) = rest.next() {
        out.push(match byte {
            b'\\' => match rest.next() {
                Some(b'n') => b'\n',
                Some(b't') => b'\t',
                Some(b'r') => b'\r',
                Some(b'x') => 16 * digit(rest.next()) + digit(rest.next()),
                other => panic!("no byte is written so: {other:?}"),
            },
            byte => byte,
        });
    }
    out
}

fn digit(byte: Option<u8>) -> u8 {
    let value = byte.and_then(|byte| char::from(byte).to_digit(16));
    value.and_then(|value| u8::try_from(value).ok()).expect("a digit of a byte")
}

/// A text of examples/, with a schedule and outcomes and what is printed for its run.
#[derive(Clone, Debug, PartialEq, Eq)]
pub struct Example {
    pub name: String,
    pub text: String,
    pub schedule: Vec<u8>,
    pub outcomes: Vec<u8>,
    pub expected: String,
}

/// All of them by their names, so that a new one is tested without being named.
///
/// # Panics
/// Where one of an example's files is missing.
pub fn examples() -> Vec<Example> {
    let folder = Path::new(env!("CARGO_MANIFEST_DIR")).join("../../examples");
    let entries = fs::read_dir(&folder).expect("the examples are there");
    let files = entries.map(|entry| entry.expect("an entry can be read").file_name());
    let names = files.filter_map(|name| Some(name.to_str()?.strip_suffix(".lanq")?.to_string()));
    let mut names: Vec<String> = names.collect();
    names.sort();
    let read = |name: &str, ending: &str| {
        let path = folder.join(format!("{name}.{ending}"));
        fs::read_to_string(&path).unwrap_or_else(|error| panic!("{}: {error}", path.display()))
    };
    let example = |name: String| {
        let (schedule, outcomes) = inputs(&read(&name, "lanq.run"));
        let [text, expected] = ["lanq", "lanq.expected"].map(|ending| read(&name, ending));
        Example { name, text, schedule, outcomes, expected }
    };
    names.into_iter().map(example).collect()
}

/// Schedule and outcomes: numbers under two headings, `0*3` for three of one kind,
/// comments after `#`.
fn inputs(file: &str) -> (Vec<u8>, Vec<u8>) {
    let mut lists: BTreeMap<&str, Vec<u8>> = BTreeMap::new();
    let mut heading = "";
    for word in file.lines().flat_map(|line| line.split('#').next().unwrap_or("").split_whitespace()) {
        match word {
            "schedule" | "outcomes" => heading = word,
            _ => {
                let (byte, count) = word.split_once('*').unwrap_or((word, "1"));
                lists.entry(heading).or_default().extend(vec![number::<u8>(byte); number(count)]);
            }
        }
    }
    let mut list = |heading| lists.remove(heading).unwrap_or_default();
    (list("schedule"), list("outcomes"))
}
