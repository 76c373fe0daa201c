//! Paper 1: the texts in docs/TEXT.md are answered as it says.

use std::fs;
use std::path::Path;

use model::text::translate;

fn document() -> String {
    let path = Path::new(env!("CARGO_MANIFEST_DIR")).join("../../docs/TEXT.md");
    fs::read_to_string(&path).unwrap_or_else(|error| panic!("{}: {error}", path.display()))
}

/// `30 at 14`: a refusal's number and place.
fn refusal(cell: &str) -> Option<(u16, usize)> {
    let (number, place) = cell.split_once(" at ")?;
    Some((number.parse().ok()?, place.parse().ok()?))
}

fn answer(text: &str) -> Option<(u16, usize)> {
    translate(text.as_bytes()).err().map(|refusal| (refusal.number, refusal.place))
}

/// The rows whose first cell is a text in backquotes and whose second is a
/// refusal.
#[test]
fn every_refused_text_is_refused_as_it_says() {
    let mut numbers = [0; 3];
    for line in document().lines() {
        let Some(row) = line.strip_prefix("| `").and_then(|row| row.strip_suffix(" |")) else { continue };
        let Some((text, rest)) = row.split_once("` | ") else { continue };
        let Some(expected) = rest.split(" | ").next().and_then(refusal) else { continue };
        if text.contains('`') {
            // With repetitions: below.
            continue;
        }
        assert_eq!(answer(text), Some(expected), "{text}");
        numbers[usize::from(expected.0) - 30] += 1;
    }
    assert!(numbers.iter().all(|rows| *rows >= 10), "{numbers:?}");
}

/// The rows whose text is written with repetitions.
#[test]
fn every_long_text_is_refused_as_it_says() {
    let methods: String = (1..=32).map(|index| format!("void f{index}() {{ }} ")).collect();
    let assigned = |times: usize| format!("void main() {{ int a; {}}}", "a = 1; ".repeat(times));
    let texts = [
        ("of no byte", String::new()),
        (
            "`void main() ` and then 33 times `{` and 33 times `}`",
            format!("void main() {}{}", "{".repeat(33), "}".repeat(33)),
        ),
        (
            "`void main() { ` and then 32 times `if (true) ` and `; }`",
            format!("void main() {{ {}; }}", "if (true) ".repeat(32)),
        ),
        (
            "`void main() { } ` and then `void f1() { } ` up to `void f32() { } `",
            format!("void main() {{ }} {methods}"),
        ),
        ("`void main() { int a; ` and then 1,366 times `a = 1; ` and `}`", assigned(1_366)),
        (
            "`void main() { int a; ` and then 1,365 times `a = 1; ` and `} void f() { }`",
            assigned(1_365) + " void f() { }",
        ),
    ];
    let document = document();
    for (cell, text) in texts {
        let start = format!("| {cell} | ");
        let row = document.lines().find_map(|line| line.strip_prefix(&start)).unwrap_or_else(|| panic!("{cell}"));
        assert_eq!(answer(&text), row.split(" | ").next().and_then(refusal), "{cell}");
    }
}

/// The tables that are written out whole, each after its text.
#[test]
fn every_table_is_the_texts() {
    let document = document();
    let (_, part) = document.split_once("\n## Two texts whole\n").expect("the part");
    let (part, _) = part.split_once("\n## ").expect("its end");
    let blocks: Vec<String> = part
        .split("\n\n")
        .filter(|block| block.trim_start_matches('\n').starts_with("    "))
        .map(|block| block.lines().map(str::trim).collect::<Vec<&str>>().join("\n"))
        .collect();
    assert_eq!(blocks.len(), 4);
    for two in blocks.chunks_exact(2) {
        let words: Vec<u16> = two[1].split_whitespace().map(|word| word.parse().expect("a word")).collect();
        assert_eq!(translate(two[0].as_bytes()), Ok(words), "{}", two[0]);
    }
}
