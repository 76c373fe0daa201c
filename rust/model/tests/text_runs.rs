//! Paper 1: "The table's run has the lines, counts and end of the text's meaning,
//! written as rules on the text's tree". Runs of texts written by hand.

use data::texts::records;
use data::{End, Line, WORK_WORDS};
use model::text::{run, translate, tree, TextRun};
use model::{check, Machine};

const AMPLE: usize = 6 * 1000;

/// The run of a text's tree, which is to be that of its table, holders too.
fn both(text: &str, schedule: &[u8], outcomes: &[u8], trace: usize) -> TextRun {
    let on_tree = run(&tree(text.as_bytes()).expect("no 30 and no 31"), schedule, outcomes, trace);
    let words = translate(text.as_bytes()).expect("no 32");
    let program = check(&words, schedule, outcomes, WORK_WORDS).expect("the table passes");
    let on_table = model::run(&program, schedule, outcomes, trace);
    assert_eq!(on_tree.answer(), on_table.answer(), "{text}");
    assert_eq!(on_tree.lines, on_table.lines, "{text}");
    assert_eq!(on_tree.holders, on_table.configuration.holders, "{text}");
    on_tree
}

/// The lines as the printing program prints them.
fn printed(run: &TextRun) -> Vec<String> {
    run.lines.iter().map(Line::to_string).collect()
}

/// How many entries of main a text takes until it is over.
fn entries(text: &str, outcomes: &[u8]) -> usize {
    let run = both(text, &[0; 500], outcomes, AMPLE);
    assert_eq!(run.end, End::AllOver, "{text}");
    run.entries
}

#[test]
fn records_run_alike() {
    let schedule: Vec<u8> = (0..400).map(|index| (index * index / 7 % 3) as u8).collect();
    for record in records() {
        let Ok(text) = String::from_utf8(record.text) else { continue };
        if translate(text.as_bytes()).is_ok() {
            both(&text, &schedule, &[1, 0, 2, 1, 1], AMPLE);
            both(&text, &schedule, &[], 12);
        }
    }
}

/// One entry is one instruction of the translation.
#[test]
fn what_one_move_is() {
    let moves = [
        ("", 1),
        ("a = 1;", 4),
        ("a = b = 1;", 5),
        ("a = 1 + (2 - 3);", 8),
        (";;{ ; }", 1),
        ("{ int x; boolean y; }", 3),
        ("if (true) a = 1;", 6),
        ("if (false) a = 1;", 3),
        ("if (true) a = 1; else a = 2;", 7),
        ("if (false) a = 1; else a = 2;", 6),
        ("a = 0; while (a < 1) a = a + 1;", 3 + 4 + 5 + 1 + 4 + 1),
        ("q = new qbit(); X(q);", 6),
        ("q = new qbit(); measure(StdBasis, q);", 7),
        ("c = new channel[int]();", 10),
        ("f(3);", 6),
        ("g();", 3),
        ("a = f(f(3));", 10),
        ("return g();", 3),
    ];
    for (body, count) in moves {
        let text = format!(
            "int f(int x) {{ return x; }} void g() {{ }}
             void main() {{ int a, b; qbit q; channel[int] c withends [d, e]; {body} }}"
        );
        assert_eq!(entries(&text, &[1]), count, "{body}");
    }
}

/// "Running off a non-void method's end is fault 20."
#[test]
fn running_off_a_methods_end() {
    let text = "int f() { int a; a = 1; } void main() { f(); }";
    let run = both(text, &[0; 9], &[], AMPLE);
    assert_eq!(printed(&run), ["4 0 10 20 - -"]);
    let text = "int f(int a) { if (a < 1) return a; } void main() { f(0); f(1); }";
    let run = both(text, &[0; 30], &[], AMPLE);
    assert_eq!(printed(&run), ["15 0 10 20 - -"]);
}

/// P3 of document 01 as a text: a withends channel's assignment takes more entries.
#[test]
fn the_run_given_whole() {
    let text = "void main() {
            qbit q; channel[qbit] c withends [mine, theirs];
            q = new qbit(); c = new channel[qbit]();
            fork child(theirs); send(mine, q); measure(StdBasis, q);
        }
        void child(channelEnd[qbit] e) { H(recv(e)); }";
    let schedule = [&[0u8; 14][..], &[1, 0, 0, 0, 1, 1, 0]].concat();
    let run = both(text, &schedule, &[], AMPLE);
    let expected = [
        "0 0 1 0 - -",
        "3 0 2 0 - -",
        "13 0 5 1 1 1",
        "13 0 6 1 6 0",
        "17 0 7 1 0 0",
        "17 0 6 1 3 0",
        "18 1 3 4 0 -",
        "19 1 9 - - -",
        "20 0 10 20 - -",
    ];
    assert_eq!(printed(&run), expected);
    assert_eq!(run.answer().to_string(), "end 1 21 9 0");
}

/// "Values already evaluated are emptied too": P10 as a text.
#[test]
fn a_half_evaluated_call_loses_what_is_given_away() {
    let text = "void main() { qbit q; q = new qbit(); pair(q, other(q)); }
        void pair(qbit a, qbit b) { CX(a, b); }
        qbit other(qbit q) { fork keep(q); return new qbit(); }
        void keep(qbit q) { X(q); }";
    let run = both(text, &[0; 20], &[], AMPLE);
    let expected = ["0 0 1 0 - -", "7 0 5 1 3 1", "7 0 6 1 3 0", "8 0 1 1 - -", "10 0 10 20 - -"];
    assert_eq!(printed(&run), expected);
}

/// "a partner with an emptied operand is not ready": the end is given away by the method
/// that works out the value.
#[test]
fn a_half_evaluated_send_loses_its_end() {
    let text = "void main() { channel[int] c withends [a, b]; c = new channel[int](); fork f(b); send(a, lend(a)); }
        int lend(channelEnd[int] e) { fork lent(e); return 1; }
        void lent(channelEnd[int] e) { ; }
        void f(channelEnd[int] e) { recv(e); }";
    let start = [&[0u8; 11][..], &[1], &[0; 7]].concat();
    // The receiver finds main at send, not ready, and waits; main is stopped.
    let run = both(text, &[&start[..], &[1, 0]].concat(), &[], AMPLE);
    let expected = ["0 0 2 0 - -", "10 0 5 1 3 1", "10 0 6 1 6 0", "16 0 5 2 2 1", "16 0 6 2 5 0", "20 0 10 20 - -"];
    assert_eq!(printed(&run), expected);
    // When the process that got the end has finished too, nobody is left to meet.
    let run = both(text, &[&start[..], &[2, 1, 0]].concat(), &[], AMPLE);
    let expected = ["19 2 9 - - -", "20 1 10 33 - -", "21 0 10 20 - -"];
    assert_eq!(printed(&run)[5..], expected);
}

/// The ends that a withends assignment fills are those declared with the channel, though
/// an inner block declares their names anew.
#[test]
fn the_ends_declared_with_a_channel_are_filled() {
    let text = "void main() {
            channel[int] c withends [a, b];
            { int a, b; c = new channel[int](); a = 1; }
            fork f(b); send(a, 5);
        }
        void f(channelEnd[int] e) { recv(e); }";
    let run = both(text, &[&[0u8; 16][..], &[1, 0, 0, 0]].concat(), &[], AMPLE);
    let expected = ["2 0 2 0 - -", "15 0 5 1 1 1", "15 0 6 1 6 0", "19 0 7 1 0 0", "19 0 8 5 0 -"];
    assert_eq!(printed(&run), expected);
}

/// An inner block's variable is empty again in every round.
#[test]
fn a_block_starts_anew() {
    let text = "void main() { int a, b; a = 0; b = 0;
        while (a < 2) { int x; if (a == 1) b = x; x = 7; a = a + 1; } }";
    let run = both(text, &[0; 100], &[], AMPLE);
    assert_eq!(printed(&run), ["33 0 10 20 - -"]);
}

/// Paper 6's fault 33, and the ends of a run.
#[test]
fn faults_and_ends() {
    let gone = "void main() { channel[int] c withends [a, b]; c = new channel[int](); fork f(b); send(a, 1); }
        void f(channelEnd[int] e) { }";
    let run = both(gone, &[&[0u8; 11][..], &[1, 0, 0, 0]].concat(), &[], AMPLE);
    assert_eq!(printed(&run).last().map(String::as_str), Some("14 0 10 33 - -"));
    assert_eq!(run.end, End::AllOver);
    let stuck = "void main() { channel[int] c withends [a, b]; c = new channel[int](); fork f(b); send(a, 1); }
        void f(channelEnd[int] e) { send(e, 1); }";
    let run = both(stuck, &[&[0u8; 11][..], &[1, 1, 0, 0, 0]].concat(), &[], AMPLE);
    assert_eq!((run.end, run.entries), (End::Stuck, 15));
    assert_eq!(
        both("void main() { new_(); } void new_() { qbit q; q = new qbit(); }", &[0; 9], &[], 0).end,
        End::TraceFull
    );
    assert_eq!(both("void main() { main(); }", &[0; 5], &[], AMPLE).end, End::ScheduleUsed);
    let deep = both("void main() { main(); }", &[0; 50], &[], AMPLE);
    assert_eq!(printed(&deep), ["7 0 10 25 - -"]);
}

/// The tree's values that are pending are the table's, frame by frame.
#[test]
fn pending_values_are_the_tables() {
    let text = "void main() { int a; a = 1 + (2 + f(3, a = 4)) - 5; } int f(int x, int y) { return x + y; }";
    let words = translate(text.as_bytes()).expect("no refusal");
    let program = check(&words, &[], &[], WORK_WORDS).expect("the table passes");
    let tree = tree(text.as_bytes()).expect("no refusal");
    let mut on_table = Machine::new(&program, &[], AMPLE);
    let mut on_tree = model::text::run::Machine::new(&tree, &[], AMPLE);
    for _ in 0..60 {
        assert_eq!(on_table.entry(0).is_ok(), on_tree.entry(0).is_ok());
        for (table, tree) in on_table.config.processes[0].frames.iter().zip(&on_tree.config.processes[0].frames) {
            assert_eq!(table.pending, tree.pending());
        }
    }
}
