//! Runs as drawings.

mod common;

use std::collections::BTreeSet;

use common::{examples, folder, lanq, lanq_in, write};

/// The texts of a drawing.
fn texts(svg: &str) -> Vec<String> {
    let texts = svg.split("<text ").skip(1).filter_map(|rest| rest.split_once('>')?.1.split_once("</text>"));
    texts.map(|(text, _)| text.to_string()).collect()
}

/// Every element is closed, in its order.
fn is_well_built(svg: &str) -> bool {
    let mut open = Vec::new();
    for tag in svg.split('<').skip(1).filter_map(|rest| rest.split_once('>')).map(|(tag, _)| tag) {
        let name = |tag: &str| tag.split([' ', '/']).next().unwrap_or_default().to_string();
        match tag.strip_prefix('/') {
            Some(closed) if open.pop() != Some(name(closed)) => return false,
            None if !tag.ends_with('/') => open.push(name(tag)),
            _ => (),
        }
    }
    open.is_empty()
}

/// Where a text stands: left, top, right and bottom. A letter is taken to be a
/// little more than half as wide as it is high.
fn place(element: &str) -> Option<[f64; 4]> {
    let attribute = |name: &str| element.split_once(&format!("{name}=\""))?.1.split('"').next();
    let number = |name: &str| attribute(name)?.parse::<f64>().ok();
    let (x, y, size) = (number("x")?, number("y")?, number("font-size")?);
    let (text, _) = element.split_once('>')?.1.split_once("</text>")?;
    let width = 0.55 * size * text.chars().count() as f64;
    let left = match attribute("text-anchor")? {
        "end" => x - width,
        "middle" => x - width / 2.0,
        _ => x,
    };
    Some([left, y - 0.8 * size, left + width, y + 0.2 * size])
}

/// No text of a drawing stands on another one.
fn is_legible(svg: &str) -> bool {
    let places: Vec<[f64; 4]> = svg.split("<text ").skip(1).map(|rest| place(rest).expect("a text's place")).collect();
    let apart = |one: &[f64; 4], other: &[f64; 4]| {
        one[2] <= other[0] || other[2] <= one[0] || one[3] <= other[1] || other[3] <= one[1]
    };
    places.iter().enumerate().all(|(index, one)| places[..index].iter().all(|other| apart(one, other)))
}

/// The entries with lines.
fn columns(printed: &str) -> BTreeSet<&str> {
    printed.lines().filter(|line| !line.starts_with("end")).filter_map(|line| line.split(' ').next()).collect()
}

#[test]
fn examples_are_drawn() {
    for example in examples() {
        let svg = lanq(&["timeline", &format!("{}.lqa", example.name)]).quiet();
        assert!(is_well_built(&svg) && is_legible(&svg), "{}", example.name);
        let texts = texts(&svg);
        let title = format!("{}.lqa: end 1, every process made has finished or stopped", example.name);
        assert_eq!(texts[0], title);
        for column in columns(&example.expected) {
            assert!(texts.iter().filter(|text| *text == column).count() >= 2, "{}: {column}", example.name);
        }
        let measured = example.expected.lines().filter(|line| line.split(' ').nth(2) == Some("4")).count();
        assert_eq!(texts.iter().filter(|text| text.starts_with("M ")).count(), measured, "{}", example.name);
    }
}

#[test]
fn marks_of_the_given_run() {
    let svg = lanq(&["timeline", "given-whole.lqa"]).quiet();
    let texts = texts(&svg);
    let count = |wanted: &str| texts.iter().filter(|text| *text == wanted).count();
    for (text, times) in [
        ("process 0", 2),
        ("process 0 stopped by fault 20", 1),
        ("process 1 finished", 1),
        ("qubit 0", 2),
        ("end 0.1", 2),
        ("H", 1),
        ("S", 1),
        ("R", 1),
        ("q0", 1),
        ("child", 1),
    ] {
        assert_eq!(count(text), times, "{text}");
    }
    // Held by 0 and by 1, each in its colour.
    assert!(svg.contains("#0072b2") && svg.contains("#e69f00"));
    assert!(svg.contains("<title>17 0 10 20 - -\nprocess 0 stops by fault 20: "));
}

/// A measurement without a click differs from the outcomes.
#[test]
fn no_click() {
    let svg = lanq(&["timeline", "teleport.lqa", "--outcomes", "120"]).quiet();
    assert!(is_well_built(&svg));
    let measured: Vec<String> = texts(&svg).into_iter().filter(|text| text.starts_with("M ")).collect();
    assert_eq!(measured, ["M 1", "M \u{2205}", "M 0"]);
    assert!(svg.contains("\nprocess 1 measures qubit 1, outcome 2: no click</title>"));
}

/// Eight processes, 32 qubits and 32 ends: a row for each, no two rows in one
/// place, no text on another.
#[test]
fn the_largest_run_has_a_row_for_each() {
    let mut main = "method void main()\n".to_string();
    main += &"    FORK worker\n".repeat(7);
    main += &"    NEWC int\n    DROP\n".repeat(16);
    main += "    CALL worker\n    RET\nmethod void worker()\n";
    main += &"    NEWQ\n    GATE H\n".repeat(4);
    main += "    RET\n";
    let folder = folder("timeline");
    write(&folder, "large.lqa", main);
    let called = lanq_in(&folder, &["timeline", "large.lqa", "--schedule", "until-stuck"]);
    assert_eq!(called.status, Some(0));
    assert!(is_well_built(&called.out) && is_legible(&called.out));
    // Texts in one place are seen.
    let twice =
        called.out.replace("<text x=", "<text x=\"5\" y=\"5\" font-size=\"9\" text-anchor=\"start\">a</text><text x=");
    assert!(!is_legible(&twice));
    let rows = called.out.split("text-anchor=\"end\"").count() - 1;
    assert_eq!(rows, 8 + 32 + 32);
    let places = called.out.lines().filter(|line| line.contains("text-anchor=\"end\""));
    let places: BTreeSet<&str> = places.filter_map(|line| line.split('"').nth(3)).collect();
    assert_eq!(places.len(), rows);
}

/// A fork that gives qubits to the process in the next row: the child's name stands there alone.
#[test]
fn a_fork_that_gives_qubits() {
    let main = "method void main()\n    NEWQ\n    NEWQ\n    FORK station\n    RET\n\
                method void station(qbit first, qbit second)\n    RET\n";
    let folder = folder("timeline-fork");
    write(&folder, "fork.lqa", main);
    let called = lanq_in(&folder, &["timeline", "fork.lqa", "--schedule", "until-stuck"]);
    assert_eq!(called.status, Some(0));
    assert!(is_well_built(&called.out) && is_legible(&called.out));
    assert!(texts(&called.out).iter().any(|one| one == "station"));
}

/// Only some entries; what was held before them is held at their start.
#[test]
fn a_part_of_a_run() {
    let svg = lanq(&["timeline", "teleport.lqa", "--entries", "40-50"]).quiet();
    let texts = texts(&svg);
    for (text, there) in [("42", true), ("45", true), ("46", true), ("39", false), ("51", false), ("qubit 0", true)] {
        assert_eq!(texts.iter().any(|one| one == text), there, "{text}");
    }
}

/// Names are written so that they cannot break the drawing.
#[test]
fn names_are_escaped() {
    let folder = folder("timeline-names");
    write(&folder, "a & <b>.lqa", "method void main()\n  RET\nschedule 0\n");
    let svg = lanq_in(&folder, &["timeline", "a & <b>.lqa"]).quiet();
    assert!(is_well_built(&svg) && svg.contains("a &amp; &lt;b&gt;.lqa"));
}
