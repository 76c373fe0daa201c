//! LanQ texts by the command: examples, tables, and refusals 30 to 32 in words.

mod common;

use std::collections::BTreeMap;
use std::fs;

use cli::json::Json;
use cli::machine::Machine;
use cli::text::place::TextPlace;
use cli::text::reason::reason;
use common::{bytes, folder, lanq, lanq_in, repository, write};
use data::file::file;
use data::texts::records;
use data::{Question, Refusal};
use generate::text_case;
use model::text::{translate, Reason, TextRefusal};

/// The examples' names, so that a new one is tested without being named here.
fn names() -> Vec<String> {
    let entries = fs::read_dir(repository("examples")).expect("the examples are there");
    let files = entries.map(|entry| entry.expect("an entry can be read").file_name());
    let names = files.filter_map(|name| Some(name.to_str()?.strip_suffix(".lanq")?.to_string()));
    let mut names: Vec<String> = names.collect();
    names.sort();
    assert!(names.len() >= 8);
    names
}

fn example(name: &str) -> String {
    fs::read_to_string(repository("examples").join(name)).unwrap_or_else(|error| panic!("{name}: {error}"))
}

/// The schedule and the outcomes stand beside a text.
#[test]
fn the_command_prints_the_examples() {
    for name in names() {
        let file = format!("{name}.lanq");
        let expected = example(&format!("{file}.expected"));
        assert_eq!(lanq(&["run", &file]).quiet(), expected);
        assert_eq!(lanq(&["run", &file, "--model"]).quiet(), expected);
        let said = lanq(&["check", &file]).quiet();
        assert!(said.starts_with(&format!("{file}: accepted; methods ")), "{said}");
        let explained = lanq(&["explain", &file]).quiet();
        assert!(explained.contains("end 1: every process made has finished or stopped\n"), "{explained}");
        assert!(lanq(&["timeline", &file]).quiet().starts_with("<svg"));
    }
}

/// A run is explained with the names of the text.
#[test]
fn names_of_a_text() {
    let explained = lanq(&["explain", "half-evaluated.lanq"]).quiet();
    assert!(explained.contains("at main 18 (table 18, line 21 of the listing): CALL pair\n"), "{explained}");
    assert!(explained.contains("emptied: q (qubit 0, given to process 1 at entry "), "{explained}");
    let folder = folder("text-names");
    let text = "int f(int a) { int b; { int a, b; a = b; } return a; } void main() { f(1); }";
    write(&folder, "twice.lanq", text);
    let expected = "\
method void main()
    INT 1
    CALL f
    DROP
    RET

method int f(int a)
    slots int b, int a_2, int b_2, int hole
    CLEAR a_2
    CLEAR b_2
    GET b_2
    PUT a_2
    DROP
    GET a
    RET
    GET hole
    RET

";
    assert_eq!(lanq_in(&folder, &["translate", "twice.lanq"]).quiet(), expected);
}

/// What is written assembles to the words of the table.
#[test]
fn tables_of_texts() {
    let folder = folder("text-tables");
    for name in names() {
        let text = example(&format!("{name}.lanq"));
        let table = translate(text.as_bytes()).expect("an example is not refused");
        let path = write(&folder, "text.lanq", &text);
        let path = path.to_str().expect("a path in UTF-8");
        let written = lanq(&["translate", path]).quiet();
        assert_eq!(bytes(&written), file(&table, &[], &[]), "{name}");
        let words = lanq(&["translate", path, "--words"]).quiet();
        let words: Vec<u16> = words.split_whitespace().map(|word| word.parse().expect("a number")).collect();
        assert_eq!(words, table, "{name}");
        let listed = lanq(&["list", path]).quiet();
        assert_eq!(bytes(&listed), file(&table, &[], &[]), "{name}");
        let assembled = std::process::Command::new(env!("CARGO_BIN_EXE_lanq")).args(["asm", path]).output();
        assert_eq!(assembled.expect("lanq starts").stdout, file(&table, &[], &[]), "{name}");
    }
}

/// The words of docs/TEXT.md's texts, in its lines.
#[test]
fn words_of_a_table() {
    let folder = folder("text-words");
    write(&folder, "one.lanq", "void main() { qbit q; q = new qbit(); H(q); measure(StdBasis, q); }");
    let expected = "\
1 9
0 9
0 0 3 0 0 0 0 0 0 0 0 0 0 0 0 0 0 0
7 0 4 0 5 0 3 0 10 4 3 0 11 0 5 0 13 0
";
    assert_eq!(lanq_in(&folder, &["translate", "one.lanq", "--words"]).quiet(), expected);
    let wrong = lanq_in(&folder, &["translate"]).failed(2);
    assert_eq!(wrong, "lanq translate: wants a LanQ text\nusage: lanq translate FILE.lanq > FILE.lqa [--words]\n");
    let wrong = lanq_in(&folder, &["translate", "none.lanq"]).failed(1);
    assert!(wrong.starts_with("none.lanq: cannot be read: "), "{wrong}");
}

/// A schedule by an option, from a directory and from the file beside; questions
/// 6 and 7 after the text's own.
#[test]
fn inputs_of_a_text() {
    let folder = folder("text-inputs");
    let text = "void main() { qbit q; q = new qbit(); measure(StdBasis, q); }";
    let ran = "0 0 1 0 - -\n4 0 4 0 1 -\n6 0 9 - - -\nend 1 7 3 1\n";
    write(&folder, "one.lanq", text);
    let called = lanq_in(&folder, &["run", "one.lanq"]);
    assert_eq!(called.out, "end 0 0 0 0\n");
    assert!(called.notes.starts_with("one.lanq: there is no schedule, so no entry is run"), "{}", called.notes);
    assert_eq!(lanq_in(&folder, &["run", "one.lanq", "--schedule", "0*7", "--outcomes", "1"]).quiet(), ran);
    let called = lanq_in(&folder, &["run", "one.lanq", "--schedule", "until-stuck", "--outcomes", "1"]);
    assert_eq!((called.out.as_str(), called.notes.as_str()), (ran, "one.lanq: made --schedule '0*7'\n"));
    write(&folder, "one.lanq.run", "schedule 0*7 # all\noutcomes 1\n");
    assert_eq!(lanq_in(&folder, &["run", "one.lanq"]).quiet(), ran);
    assert_eq!(lanq_in(&folder, &["run", "one.lanq", "--room", "1"]).quiet(), "0 0 1 0 - -\nend 3 4 1 0\n");
    write(&folder, "one.lanq.run", "method void main()\n  RET\n");
    let notes = lanq_in(&folder, &["run", "one.lanq"]).failed(1);
    assert_eq!(notes, "one.lanq.run:1:13: expected `schedule` or `outcomes` alone, found a method\n");
    fs::create_dir(folder.join("case")).expect("a folder");
    write(&folder.join("case"), "program.lanq", text);
    write(&folder.join("case"), "schedule.txt", "0*7");
    write(&folder.join("case"), "outcomes.txt", "1");
    assert_eq!(lanq_in(&folder, &["run", "case"]).quiet(), ran);
    for machine in [&[][..], &["--model"]] {
        let called = lanq_in(&folder, &[&["run", "case", "--outcomes", "10,3"], machine].concat());
        assert_eq!((called.status, called.out.as_str()), (Some(1), "refused 6 2\n"));
        let called = lanq_in(&folder, &[&["run", "case", "--schedule", "0*65535,0"], machine].concat());
        assert_eq!((called.status, called.out.as_str()), (Some(1), "refused 7 0\n"));
        // The text is asked first.
        let wrong = [&["run", "case", "--program", "wrong.lanq", "--outcomes", "3"], machine].concat();
        write(&folder, "wrong.lanq", "void main() { }}");
        assert_eq!(lanq_in(&folder, &wrong).out, "refused 30 15\n");
    }
}

/// Every text of a batch has its line, a refused one too.
#[test]
fn texts_in_a_batch() {
    let folder = folder("text-batch");
    let cases = folder.join("cases");
    fs::create_dir(&cases).expect("a folder");
    for name in names() {
        for ending in ["lanq", "lanq.run"] {
            write(&cases, &format!("{name}.{ending}"), example(&format!("{name}.{ending}")));
        }
    }
    write(&cases, "wrong.lanq", "void main() { x = 1; }");
    let called = lanq_in(&folder, &["batch", "cases"]);
    assert_eq!(called.status, Some(1));
    assert!(called.out.starts_with("9 cases: 8 ran, 1 refused, 0 not read\n"), "{}", called.out);
    assert!(called.out.contains("\n       1  refused 31  a text's names\n"), "{}", called.out);
}

const WRONG: &str = "void main() {\n\tint x;\n\tx = 1;\n\n\tif (x == 2) x = tru;\n}\n";

/// Place as byte, line and column, the line with a mark, and the words.
#[test]
fn a_refusal_is_shown() {
    let folder = folder("text-refused");
    write(&folder, "wrong.lanq", WRONG);
    let words = "\
wrong.lanq:5:18: refused 31 48: no variable `tru` is declared here
    at byte 48, line 5, column 18
         if (x == 2) x = tru;
                         ^
    question 31: Is every name declared, once in its block or once as a method, main among them, and called with as many arguments as it takes?
";
    for words_of_call in
        [&["run", "wrong.lanq"][..], &["run", "wrong.lanq", "--csv"], &["run", "wrong.lanq", "--model"]]
    {
        let called = lanq_in(&folder, words_of_call);
        assert_eq!((called.status, called.out.as_str()), (Some(1), "refused 31 48\n"));
        assert_eq!(called.notes, words);
    }
    for command in ["check", "explain", "timeline", "holder", "asm", "list", "translate"] {
        assert_eq!(lanq_in(&folder, &[command, "wrong.lanq"]).failed(1), words);
    }
    let json = lanq_in(&folder, &["run", "wrong.lanq", "--json"]);
    let object = Json::read(json.out.trim_end()).expect("JSON");
    assert_eq!(
        object.get("refused").expect("it is refused").to_string(),
        "{\"number\":31,\"place\":48,\"rule\":\"no variable `tru` is declared here\",\"method\":null,\"method_name\":null,\
         \"instruction\":null,\"line\":5,\"column\":18}"
    );
}

/// Lines of any length and any bytes are shown.
#[test]
fn places_of_bytes() {
    let place = |text: &[u8], byte: usize| TextPlace::new(text, byte).to_string();
    assert_eq!(place(b"", 0), "byte 0, line 1, column 1\n        \n        ^");
    assert_eq!(place(b"ab\ncd\n", 6), "byte 6, line 3, column 1\n        \n        ^");
    assert_eq!(place(b"ab\r\ncd", 1), "byte 1, line 1, column 2\n        ab\n         ^");
    assert_eq!(place("é\u{1}x".as_bytes(), 3), "byte 3, line 1, column 3\n        é x\n          ^");
    assert_eq!(place(b"\xff\xffx", 2), "byte 2, line 1, column 3\n        \u{fffd}\u{fffd}x\n          ^");
    let long = [b'a'; 5_000];
    let shown = format!("...{}...", "a".repeat(100));
    assert_eq!(place(&long, 1_000), format!("byte 1000, line 1, column 1001\n        {shown}\n        {:73}^", ""));
}

/// The words for a text's refusal, as the command finds them.
fn words(text: &[u8], machine: Machine) -> Option<String> {
    let refusal = machine.translate(text).err()?;
    Some(reason(text, refusal, &|text| machine.translate(text).err()))
}

#[test]
fn words_of_each_refusal() {
    let nested = format!("void main() {} {}", "{ ".repeat(33), "} ".repeat(33));
    let long = format!("void main() {{ int a; {} }}", "a = 1; ".repeat(1_366));
    let many = format!("void main() {{ }} {}", (1..33).map(|n| format!("void f{n}() {{ }} ")).collect::<String>());
    let slots = "void main() { int a, b, c, d, e, f, g, h, i, j, k, l, m, n, o, p, q; }";
    let types = "a value is missing or has another type, or more than 8 are pending";
    for (text, expected) in [
        ("", "expected a type or `void`, found the text's end"),
        ("void main() {", "expected a type, a statement or `}`, found the text's end"),
        ("void main() { return; }", "expected an expression, found `;`"),
        ("void main() { int a; a = 1 2; }", "expected an operator or `;`, found `2`"),
        ("void main() { ; int a; }", "expected a statement or `}`, found `int`"),
        ("void main() { if (true) ; else else }", "expected a statement, found `else`"),
        ("void main() { if (true) ; 7 }", "expected a statement, `}` or `else`, found `7`"),
        ("void main() { int a; measure(Bell, a); }", "expected `StdBasis`, found `Bell`"),
        ("void main() { channel[void] a; }", "expected `int`, `boolean` or `qbit`, found `void`"),
        ("void main(int) { }", "expected a name, found `)`"),
        ("void main(a = b) { }", "expected a type or `)`, found `a`"),
        ("void main() { a = new qbit(x = 1); }", "expected `)`, found `x`"),
        ("void main() { a = 1; \u{3c8} }", "the byte 207 belongs to no word, number or mark"),
        (
            "void main() { channel[int] d; channel[int] c withends [a, b]; d = c = new channel[int](); }",
            "`c` was declared withends, and is assigned to as a statement alone",
        ),
        (
            "void main() { channel[int] c withends [a, b]; f(1, c = new channel[int]()); }",
            "`c` was declared withends, and is assigned to as a statement alone",
        ),
        (&nested, "a body or block of depth 33 starts here, and 32 is the greatest depth"),
        ("void f() { }", "there is no method main"),
        ("void main() { x = 1; }", "no variable `x` is declared here"),
        ("void main() { g(); }", "there is no method and no gate `g`"),
        ("void main() { fork g(); }", "there is no method `g`"),
        ("void main() { qbit q; q = H(q); }", "`H` is a gate; in an expression and after fork only methods are meant"),
        ("void main() { qbit q; if (true) CX(q); }", "`CX` takes 2 arguments, 1 stand here"),
        ("void f(int a) { f(a, f(a), (a)); } void main() { }", "`f` takes 1 argument, 3 stand here"),
        ("void main(int a) { boolean b;\nqbit a; }", "`a` is declared already in this block, in line 1"),
        ("void f() { }\nvoid main() { }\nvoid f() { }", "there is a method `f` already, in line 1"),
        (&many, "it is method 33 of the text, and a table has at most 32"),
        (&long, "the instructions of the methods up to and with it are more than 4096"),
        (
            "void main() { } void f(int a, int b, int c, int d, int e, int f, int g, int h, int i) { }",
            "it has 9 parameters, at most 8",
        ),
        (slots, "it has 17 slots, at most 16: its parameters and all its variables"),
        ("int main() { }", "main has to be void"),
        ("void main(int a) { }", "main has to be without parameters"),
        (
            "void main() { int a;\na = 1; a = 032768; a = 2; }",
            "in line 2, column 8, `a = 032768`: 032768 is above 32767, the largest number",
        ),
        (
            "void main() { channelEnd[int] e; e = new channelEnd[int](); }",
            "in line 1, column 34, `e = new channelEnd[int]()`: no op makes a channel end by itself",
        ),
        (
            "void main() { int a; a = 1;\n  while (a < 3) {\n    a = true;\n    a = false; } }",
            &format!("in line 3, column 5, `a = true`: {types}"),
        ),
        ("void main() { int a; a = 1; if (a) a = true; }", &format!("in line 1, column 33, `a`: {types}")),
    ] {
        for machine in [Machine::Proved, Machine::Model] {
            assert_eq!(words(text.as_bytes(), machine).as_deref(), Some(expected), "{text}");
        }
    }
}

/// What the words of a refusal have in them, by what the model finds to be
/// wrong.
fn mark(reason: Reason) -> &'static [&'static str] {
    match reason {
        Reason::Token => &["expected ", " cannot stand here"],
        Reason::Byte => &["the byte "],
        Reason::Stops => &[", found the text's end"],
        Reason::Nesting => &["depth 33"],
        Reason::Withends => &["was declared withends"],
        Reason::Variable => &["no variable "],
        Reason::Method => &["there is no method ", " is a gate; "],
        Reason::DeclaredTwice => &[" is declared already in this block"],
        Reason::MethodTwice => &["there is a method "],
        Reason::Count | Reason::GateCount => &[" takes "],
        Reason::NoMain => &["there is no method main"],
        Reason::Methods => &["it is method "],
        Reason::Instructions => &["more than 4096"],
        Reason::Parameters => &[" parameters, at most 8"],
        Reason::Slots => &[" slots, at most 16"],
        Reason::Main => &["main has to be "],
        Reason::Number => &[" is above 32767"],
        Reason::Instruction => &["no op makes "],
        Reason::Types => &["has another type"],
    }
}

/// The words say what the model finds, of the minimal texts and of generated
/// ones; the machine's number and place are the model's.
#[test]
fn words_say_what_is_wrong() {
    let texts = records().into_iter().map(|record| record.text);
    let texts = texts.chain((0..800).map(|seed| text_case(seed).text));
    let mut met: BTreeMap<Reason, usize> = BTreeMap::new();
    for text in texts {
        let Err(TextRefusal { number, place, reason }) = translate(&text) else { continue };
        let shown = String::from_utf8_lossy(&text);
        let question = Question::read(number).expect("a number of a refusal");
        assert_eq!(Machine::Proved.translate(&text), Err(Refusal::new(question, place)), "{shown}");
        let words = words(&text, Machine::Proved).expect("it is refused");
        assert!(mark(reason).iter().any(|mark| words.contains(mark)), "{reason:?}: {words}\n{shown}");
        *met.entry(reason).or_default() += 1;
    }
    assert_eq!(met.len(), Reason::ALL.len(), "{met:?}");
}
