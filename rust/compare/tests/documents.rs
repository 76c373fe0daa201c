//! What the documents name is there: files, definitions, theorems, edits,
//! functions, tests and crates, and the numbers are those of the crate data. What
//! was changed in one place only fails here.

use std::collections::{BTreeMap, BTreeSet};
use std::fs;
use std::path::{Path, PathBuf};

use data::program::op;
use data::{CarriedType, End, Event, Fault, Gate, Question, Side, Thing, Type, UNUSED};

/// The repository's root.
fn root() -> PathBuf {
    Path::new(env!("CARGO_MANIFEST_DIR")).join("../..")
}

/// The files below a folder, build folders left out.
fn files(folder: &Path) -> Vec<PathBuf> {
    let mut found = Vec::new();
    for entry in fs::read_dir(folder).expect("a folder") {
        let path = entry.expect("an entry").path();
        if path.is_dir() && !path.ends_with("target") && !path.ends_with("out") {
            found.extend(files(&path));
        } else if path.is_file() {
            found.push(path);
        }
    }
    found
}

fn text(path: &Path) -> String {
    fs::read_to_string(path).unwrap_or_else(|error| panic!("{}: {error}", path.display()))
}

/// A document's text.
fn document(name: &str) -> String {
    text(&root().join(name))
}

/// The documents, by name, with their texts.
fn documents() -> Vec<(String, String)> {
    let mut all = vec![root().join("README.md"), root().join("examples/README.md")];
    all.extend(files(&root().join("docs")));
    assert!(all.len() >= 12);
    all.iter().map(|path| (path.file_name().expect("a name").to_string_lossy().into_owned(), text(path))).collect()
}

/// The rows of a document's tables, each as its cells.
fn rows(document: &str) -> Vec<Vec<&str>> {
    let rows = document.lines().filter_map(|line| line.strip_prefix("| ")?.strip_suffix(" |"));
    rows.map(|row| row.split(" | ").collect()).collect()
}

/// The rows of the table that has these names over its columns.
fn table<'d>(document: &'d str, head: &str) -> Vec<Vec<&'d str>> {
    let lines = document.lines().skip_while(|line| *line != head).skip(2);
    let lines: Vec<&str> = lines.take_while(|line| line.starts_with('|')).collect();
    assert!(!lines.is_empty(), "{head}");
    lines.into_iter().flat_map(rows).collect()
}

/// The part of a document under a heading.
fn section<'d>(document: &'d str, heading: &str) -> &'d str {
    let (_, rest) = document.split_once(&format!("\n## {heading}\n")).unwrap_or_else(|| panic!("{heading}"));
    rest.split_once("\n## ").map_or(rest, |(section, _)| section)
}

/// What stands between backquotes, on one line.
fn quoted(document: &str) -> Vec<&str> {
    document.lines().flat_map(|line| line.split('`').skip(1).step_by(2)).collect()
}

fn is_part_of_a_name(c: char) -> bool {
    c.is_alphanumeric() || c == '_' || c == '-'
}

/// Every word of the definitions, proofs, code and tests, this one left out, and
/// the names of the edits.
fn words() -> BTreeSet<String> {
    let mut all = BTreeSet::new();
    let paths = [files(&root().join("crates")), files(&root().join("rust"))].concat();
    for path in paths.into_iter().filter(|path| !path.ends_with("tests/documents.rs")) {
        let stem = path.file_stem().expect("a name").to_string_lossy().into_owned();
        match path.extension().and_then(|ending| ending.to_str()) {
            Some("edit") => {
                all.insert(stem);
            }
            Some("antt" | "rt" | "rs") => {
                all.extend(text(&path).split(|c| !is_part_of_a_name(c)).map(str::to_owned));
            }
            _ => {}
        }
    }
    all
}

/// The names that the files of specs/ declare, by the file's name; fields and
/// constructors too.
fn declared() -> BTreeMap<String, BTreeSet<String>> {
    let mut all: BTreeMap<String, BTreeSet<String>> = BTreeMap::new();
    let specs =
        files(&root().join("crates")).into_iter().filter(|path| path.parent().is_some_and(|p| p.ends_with("specs")));
    for path in specs {
        let names = all.entry(path.file_stem().expect("a name").to_string_lossy().into_owned()).or_default();
        for line in text(&path).lines() {
            let marks = ["unfoldable", "abbrev", "pub", "record", "data"];
            let mut left = line.split_whitespace().skip_while(|word| marks.contains(word));
            names.extend(left.next().map(str::to_owned));
        }
    }
    all
}

#[test]
fn every_file_that_is_named_is_there() {
    for (document, text) in documents() {
        let between = |c: char| c.is_whitespace() || "`|,;:()\"".contains(c);
        for word in text.split(between).map(|word| word.trim_end_matches('.')) {
            let folders = ["crates/", "rust/", "docs/", "include/", "examples/"];
            let is_file = folders.iter().any(|folder| word.starts_with(folder)) && !word.contains('*');
            assert!(!is_file || root().join(word).exists(), "{document} names {word}");
        }
    }
}

#[test]
fn every_definition_that_is_named_is_there() {
    let declared = declared();
    for (document, text) in documents() {
        for name in quoted(&text) {
            let Some((file, definition)) = name.split_once('.') else { continue };
            let in_specs = file.starts_with(char::is_uppercase) && file != "File" && definition != "antt";
            // `Pending.on` is a method of a struct.
            if in_specs && definition.chars().all(is_part_of_a_name) && file != "Pending" {
                assert!(declared.get(file).is_some_and(|names| names.contains(definition)), "{document} names {name}");
            }
        }
    }
}

#[test]
fn every_word_of_the_documents_is_there() {
    let all = words();
    // The pages on the port and on the design pass name what had other names.
    let others = ["CAMPAIGNS.md", "CHANGES.md", "COMMAND.md", "DESIGN-PASS.md", "PERFORMANCE.md", "PORT.md"];
    for (name, document) in documents().into_iter().filter(|(name, _)| !others.contains(&name.as_str())) {
        // The names of the prover's library have a test of their own.
        let document = match name.as_str() {
            "READING.md" => document.replace(section(&document, LIBRARY), ""),
            _ => document,
        };
        for word in quoted(&document).into_iter().filter(|word| *word != "must-fail") {
            // `run_` stands for all crates whose names start so.
            let is_start = word.ends_with('_') && all.iter().any(|one| one.starts_with(word));
            if word.chars().all(is_part_of_a_name) {
                assert!(is_start || all.contains(word), "{name} names {word}");
            }
        }
    }
}

/// The heading of the part of docs/READING.md that explains the library.
const LIBRARY: &str = "The words of the library";

/// Theorems and contracts stand in the files that the tables give for them.
#[test]
fn every_theorem_is_in_its_file() {
    let mut found = 0;
    for document in [document("README.md"), document("docs/READING.md"), document("docs/MAP.md")] {
        for row in rows(&document) {
            let Some(files) = row[1..].iter().find(|cell| cell.starts_with("crates/")) else { continue };
            // `crates/trace/src/lookup.rt, same.rt` are two files of one folder.
            let paths: Vec<&str> = files.split(", ").collect();
            let folder = root().join(paths[0]).parent().expect("a folder").to_path_buf();
            let texts: Vec<String> = std::iter::once(root().join(paths[0]))
                .chain(paths[1..].iter().map(|name| folder.join(name)))
                .map(|path| text(&path))
                .collect();
            for name in quoted(row[0]) {
                let is_there = |text: &String| text.split(|c| !is_part_of_a_name(c)).any(|word| word == name);
                assert!(texts.iter().any(is_there), "{name} is not in {files}");
                found += 1;
            }
        }
    }
    assert!(found > 60, "{found} names");
}

/// The library's names that the files to believe import are explained, each
/// under its module.
#[test]
fn every_name_of_the_library_is_explained() {
    let reading = document("docs/READING.md");
    let mut explained = BTreeSet::new();
    for row in rows(section(&reading, LIBRARY)) {
        for name in quoted(row[0]) {
            let name = name.replace('\\', "");
            explained.extend(row[1].split(", ").map(|module| (module.to_string(), name.clone())));
        }
    }
    let named = reading.split([' ', '|', '\n']).filter(|word| word.starts_with("crates/"));
    let files = named.filter(|word| word.contains("/specs/") || word.ends_with(".rt"));
    let mut imported = 0;
    for file in files {
        for line in text(&root().join(file)).lines() {
            let line = line.strip_prefix("ghost ").unwrap_or(line).trim_end_matches(';');
            let Some(used) = line.strip_prefix("use ") else { continue };
            let Some((module, names)) = used.split_once(".{") else { continue };
            if !["Prim.", "lib.", "mathlib.", "Rattle.std."].iter().any(|library| module.starts_with(library)) {
                continue;
            }
            for name in names.trim_end_matches('}').split(", ") {
                let explained = explained.contains(&(module.to_string(), name.to_string()));
                assert!(explained, "{file} imports {name} of {module}");
                imported += 1;
            }
        }
    }
    assert!(imported > 100, "{imported} names");
}

/// Every file of definitions that does not follow the code is in the guide.
#[test]
fn every_definition_is_in_the_guide() {
    let reading = document("docs/READING.md");
    let specs =
        files(&root().join("crates")).into_iter().filter(|path| path.parent().is_some_and(|p| p.ends_with("specs")));
    for path in specs {
        let path = path.strip_prefix(root()).expect("a path below the root").to_string_lossy().into_owned();
        let is_named = path.ends_with("Code.antt") || path.ends_with("/Lib.antt") || reading.contains(&path);
        assert!(is_named, "docs/READING.md does not name {path}");
    }
}

/// Every crate has its row in docs/CRATES.md, and no row is of none.
#[test]
fn every_crate_is_listed() {
    let crates = document("docs/CRATES.md");
    let named: BTreeSet<String> = rows(&crates).iter().map(|row| row[0].to_string()).collect();
    let proved = document("crates.txt");
    // `lanq staticlib: ..` is the crate lanq.
    let lines = proved.lines().filter_map(|line| line.split_once(':'));
    let proved = lines.map(|(name, _)| name.trim_end_matches(" staticlib").to_string());
    let workspace = document("rust/Cargo.toml");
    let (_, members) = workspace.split_once("members = [").expect("the members");
    let (members, _) = members.split_once(']').expect("the members' end");
    let tested = members.split(", ").map(|name| name.trim_matches('"').to_string());
    let heads =
        ["definitions and laws", "traces", "the check", "the run", "printing, and C", "reading a LanQ text", "crate"];
    let expected: BTreeSet<String> = proved.chain(tested).chain(heads.map(str::to_string)).collect();
    assert_eq!(named, expected);
}

/// The tables of docs/MACHINE.md have the numbers, names and words of the crate
/// data.
#[test]
fn the_machines_numbers_are_ours() {
    let machine = document("docs/MACHINE.md");
    let numbers =
        |rows: &[Vec<&str>]| -> Vec<u16> { rows.iter().map(|row| row[0].parse().expect("a number")).collect() };
    let ops = table(&machine, "| op | argument | takes | gives | does |");
    let listed: Vec<String> = op::NAMES.iter().zip(1..).map(|(name, number)| format!("{number} {name}")).collect();
    assert_eq!(ops.iter().map(|row| row[0].to_string()).collect::<Vec<_>>(), listed);
    let questions = table(&machine, "| number | question | place |");
    assert_eq!(numbers(&questions), Question::ALL.map(Question::number));
    let ends = table(&machine, "| end | the run stopped because |");
    assert_eq!(BTreeSet::from_iter(numbers(&ends)), BTreeSet::from(End::ALL.map(End::number)));
    for row in ends {
        let end = End::read(row[0].parse().expect("a number")).expect("an end").to_string();
        assert!(row[1].starts_with(&end), "{end}");
    }
    let faults = table(&machine, "| fault | stops a process because |");
    assert_eq!(numbers(&faults), Fault::ALL.map(Fault::number));
    assert!(faults.iter().zip(Fault::ALL).all(|(row, fault)| row[1] == fault.to_string()));
    let gates: Vec<String> = Gate::ALL.iter().map(|gate| format!("{} {gate}", gate.number())).collect();
    assert!(machine.contains(&format!("Gates: {}.", gates.join(", "))));
    for carried in CarriedType::ALL {
        let [channel, end] = [Type::Channel(carried), Type::End(carried)].map(|kind| kind.number().to_string());
        let types = table(&machine, "| type | is |");
        assert!(types.iter().any(|row| row[0].ends_with(&channel) || row[0].contains(&format!("{channel}, "))));
        assert!(types.iter().any(|row| row[0].ends_with(&end) || row[0].contains(&format!("{end}, "))));
    }
    let things = [Thing::Qubit(0), Thing::Channel(0), Thing::End(0, Side::Zero), Thing::End(0, Side::One)];
    assert_eq!(things.map(Thing::code), [3, 4, 5, 6]);
    assert!(machine.contains("| 3 qubit, 4 channel, 5 end 0, 6 end 1 |"));
    kinds(&table(&machine, "| kind | line | process | a | b | c |"));
}

/// Each kind by its number and name, with the columns that it uses.
fn kinds(rows: &[Vec<&str>]) {
    let events = [
        Event::QubitMade { qubit: 0 },
        Event::ChannelMade { channel: 0 },
        Event::Gate { gate: Gate::Cx, qubit: 0, second: Some(1) },
        Event::Measured { qubit: 0, outcome: 0 },
        Event::Forked { child: 0, method: 0, arguments: 0 },
        Event::Gave { to: 0, thing: Thing::Qubit(0) },
        Event::Met { receiver: 0, channel: 0, side: Side::Zero },
        Event::Passed { value: 0 },
        Event::Finished,
        Event::Stopped { fault: Fault::Empty },
    ];
    assert_eq!(rows.len(), events.len());
    for (row, event) in rows.iter().zip(events) {
        let line = event.line(0, 0);
        assert_eq!((row[0], row[1]), (line.kind.to_string().as_str(), event.name()));
        let unused = [line.a, line.b, line.c].map(|column| column == UNUSED);
        assert_eq!([row[3], row[4], row[5]].map(|cell| cell == "unused"), unused, "{}", event.name());
    }
}
