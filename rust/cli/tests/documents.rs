//! What README.md and docs/COMMAND.md show is what is printed: each call in them
//! is made, in a folder with the files that they speak of.

mod common;

use std::fs;
use std::path::Path;

use common::{bytes, examples, folder, lanq_in, repository, write};
use model::print::print;

fn document(path: &str) -> String {
    fs::read_to_string(repository(path)).unwrap_or_else(|error| panic!("{path}: {error}"))
}

/// The indented block of a document that has this line, without its indent.
fn block(document: &str, line: &str) -> String {
    let lines: Vec<&str> = document.lines().collect();
    let is_part = |line: &&str| line.is_empty() || line.starts_with("    ");
    let at = lines.iter().position(|one| one.trim_start() == line).unwrap_or_else(|| panic!("{line}"));
    let before = lines[..at].iter().rev().take_while(|line| is_part(line)).count();
    let block: Vec<&str> =
        lines[at - before..].iter().take_while(|line| is_part(line)).map(|line| line.get(4..).unwrap_or("")).collect();
    block.join("\n").trim().to_string() + "\n"
}

/// The calls that a document shows after `$ ` and a name of the command, each
/// with the lines that it shows for it.
fn calls<'d>(document: &'d str, command: &str) -> Vec<(&'d str, Vec<&'d str>)> {
    let mark = format!("    $ {command} ");
    let mut lines = document.lines().peekable();
    let mut calls = Vec::new();
    while let Some(line) = lines.next() {
        let Some(call) = line.strip_prefix(&mark) else { continue };
        let mut shown = Vec::new();
        while let Some(line) = lines.next_if(|line| line.starts_with("    ") && !line.starts_with("    $")) {
            shown.push(&line[4..]);
        }
        calls.push((call, shown));
    }
    calls
}

/// What a call prints, its notes after it; after `>` is a file for what it
/// prints.
fn called(folder: &Path, call: &str) -> String {
    let (call, file) = call.split_once(" > ").map_or((call, None), |(call, file)| (call, Some(file)));
    let words: Vec<&str> = call.split(' ').map(|word| word.trim_matches('\'')).collect();
    let called = lanq_in(folder, &words);
    match file {
        Some(file) => {
            write(folder, file, called.out);
            called.notes
        }
        None => called.out + &called.notes,
    }
}

/// Whether lines are those of a document, where `...` stands for any lines, and
/// at a line's end for the rest of it.
fn agree(lines: &[&str], document: &[&str]) -> bool {
    match (lines, document) {
        ([], []) => true,
        (_, ["...", rest @ ..]) => (0..=lines.len()).any(|start| agree(&lines[start..], rest)),
        ([line, lines @ ..], [shown, rest @ ..]) => {
            let same = match shown.strip_suffix(" ...") {
                Some(start) => line.starts_with(start),
                None => line == shown,
            };
            same && agree(lines, rest)
        }
        _ => false,
    }
}

/// Makes the calls of a document in a folder, in their order.
fn print_what_is_shown(folder: &Path, document: &str, command: &str, least: usize) {
    let calls = calls(document, command);
    for (call, shown) in &calls {
        let printed = called(folder, call);
        assert!(agree(&printed.lines().collect::<Vec<&str>>(), shown), "{call}\n{printed}");
    }
    assert!(calls.len() >= least, "{} calls", calls.len());
}

/// A program that question 5 refuses, as docs/COMMAND.md shows it.
const TYPED: &str = "\
# An int where a qubit belongs.

method void main()
    slots qbit q
    INT 7
    PUT q
    DROP
    RET
";

/// LanQ texts that 31 and 32 refuse.
const UNDECLARED: &str = "void main() {\n    qbit q;\n    q = new qbit();\n    H(p);\n}\n";
const TYPED_LANQ: &str = "void main() {\n    qbit q;\n    q = 7;\n}\n";

#[test]
fn the_calls_in_the_commands_document() {
    let folder = folder("document");
    for example in examples() {
        write(&folder, &format!("{}.lqa", example.name), &example.text);
        for ending in ["lanq", "lanq.run"] {
            let name = format!("{}.{ending}", example.name);
            write(&folder, &name, document(&format!("examples/{name}")));
        }
    }
    write(&folder, "typed.lqa", TYPED);
    write(&folder, "undeclared.lanq", UNDECLARED);
    write(&folder, "typed.lanq", TYPED_LANQ);
    print_what_is_shown(&folder, &document("docs/COMMAND.md"), "lanq", 10);
}

/// The text in docs/COMMAND.md is a program that runs.
#[test]
fn the_text_in_the_commands_document() {
    let text = block(&document("docs/COMMAND.md"), "method int child(end(qbit) theirs)");
    let printed = print(&bytes(&text));
    assert!(printed.ends_with("\nend 1 26 10 1\n"), "{printed}");
}

/// The first protocol of README.md, as a LanQ text and as a table, from its text
/// to its trace.
#[test]
fn the_first_protocol() {
    let readme = document("README.md");
    let folder = folder("readme");
    let lanq = block(&readme, "void bob(channelEnd[qbit] mine) {");
    write(&folder, "first.lanq", &lanq);
    assert!(readme.contains("Let main send p in place of q"));
    write(&folder, "wrong.lanq", lanq.replace("send(mine, q);", "send(mine, p);"));
    write(&folder, "first.lqa", block(&readme, "method void bob(end(qbit) mine)"));
    print_what_is_shown(&folder, &readme, "target/bin/lanq", 7);
    let drawn = fs::read_to_string(folder.join("first.svg")).expect("it is drawn");
    assert!(drawn.starts_with("<svg"));
    // What it says of a further use of the qubit, of the text and of the table.
    assert!(readme.contains("with `X(q);` after the send"));
    write(&folder, "further.lanq", lanq.replace("send(mine, q);\n", "send(mine, q);\n    X(q);\n"));
    let printed = called(&folder, "run further.lanq --schedule until-stuck --outcomes 1");
    assert!(printed.contains("\n20 0 10 20 - -\n24 1 4 0 1 -\n26 1 9 - - -\nend 1 27 10 1\n"), "{printed}");
    assert!(readme.contains("with `GET q` and `GATE X` between SEND and RET"));
    let text = fs::read_to_string(folder.join("first.lqa")).expect("the text");
    let further = text.replacen("    RET\n", "    GET q\n    GATE X\n    RET\n", 1);
    write(&folder, "further.lqa", further);
    let printed = called(&folder, "run further.lqa");
    assert!(printed.ends_with("\n15 0 10 20 - -\n16 1 4 0 1 -\n18 1 9 - - -\nend 1 19 10 1\n"), "{printed}");
}

/// The table in docs/CAMPAIGNS.md is that of the examples.
#[test]
fn the_table_of_a_campaign() {
    let folder = folder("campaign");
    let cases = folder.join("cases");
    fs::create_dir(&cases).expect("a folder");
    for example in examples() {
        write(&cases, &format!("{}.lqa", example.name), &example.text);
    }
    let table = lanq_in(&folder, &["batch", "cases", "--jobs", "8"]).out;
    let shown = document("docs/CAMPAIGNS.md");
    let first = table.lines().next().expect("a table");
    assert_eq!(block(&shown, first), table);
}
