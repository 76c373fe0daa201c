//! The examples as LanQ texts: each is answered as the file beside it says, by the run of
//! its tree and by the run of its table.

use std::collections::BTreeMap;
use std::fs;
use std::path::Path;

use data::texts::{examples, Example};
use data::{Line, LINE_WORDS, WORK_WORDS};
use model::machine::check_and_run;
use model::print::TRACE_LINES;
use model::text::grammar::Grammar;
use model::text::{run, translate, tree};

const TRACE: usize = TRACE_LINES * LINE_WORDS;

fn printed(lines: &[Line], answer: String) -> String {
    let lines: String = lines.iter().map(|line| format!("{line}\n")).collect();
    format!("{lines}{answer}\n")
}

#[test]
fn examples_print_what_stands_beside_them() {
    assert!(examples().len() >= 8);
    for Example { name, text, schedule, outcomes, expected } in examples() {
        let tree = tree(text.as_bytes()).expect("an example is not refused");
        let on_tree = run(&tree, &schedule, &outcomes, TRACE);
        assert_eq!(printed(&on_tree.lines, on_tree.answer().to_string()), expected, "{name}");
        let words = translate(text.as_bytes()).expect("an example is not refused");
        let on_table = check_and_run(&words, &schedule, &outcomes, TRACE, WORK_WORDS).expect("nor its table");
        assert_eq!(printed(&on_table.lines, on_table.answer().to_string()), expected, "{name}");
        assert_eq!(Grammar::new().recognise(text.as_bytes()), Ok(()), "{name}");
    }
}

/// Every process finishes, or a fault stops it where the header says so, and the schedule
/// and the outcomes are used up.
#[test]
fn examples_end_as_their_headers_say() {
    let stopped = BTreeMap::from([
        ("figure-1", vec![20]),
        ("given-whole", vec![20]),
        ("half-evaluated", vec![20]),
        ("station-gone", vec![33, 33]),
        ("two-names", vec![20]),
    ]);
    for Example { name, text, schedule, outcomes, .. } in examples() {
        let run = run(&tree(text.as_bytes()).expect("not refused"), &schedule, &outcomes, TRACE);
        assert_eq!((run.end.number(), run.entries, run.outcomes), (1, schedule.len(), outcomes.len()), "{name}");
        let faults = run.lines.iter().filter(|line| line.kind == 10).map(|line| line.a);
        let expected = stopped.get(name.as_str()).cloned().unwrap_or_default();
        assert_eq!(faults.collect::<Vec<_>>(), expected, "{name}");
    }
}

/// An example's lines are those of the assembler's text of the same name, but for the
/// entries: a withends assignment takes more of them.
#[test]
fn a_text_and_the_assembler_tell_the_same() {
    let lines = |text: &str| {
        let lines = text.lines().map(|line| line.split(' ').skip(1).collect::<Vec<_>>().join(" "));
        lines.collect::<Vec<_>>()
    };
    for Example { name, expected, .. } in examples().into_iter().filter(|example| example.name != "figure-1") {
        let beside = Path::new(env!("CARGO_MANIFEST_DIR")).join(format!("../../examples/{name}.expected"));
        let assembler = fs::read_to_string(&beside).unwrap_or_else(|error| panic!("{}: {error}", beside.display()));
        let [text, assembler] = [expected, assembler].map(|text| lines(&text));
        assert_eq!(text[..text.len() - 1], assembler[..assembler.len() - 1], "{name}");
    }
}
