//! `include/lanq.h` as compilers read it: the examples in C and C++ are
//! compiled with every warning an error, linked with the library and run, and
//! each number that the header names is the crate data's.

use std::fmt::Write;
use std::path::{Path, PathBuf};
use std::process::Command;

use data::program::{op, MOST_INSTRUCTIONS, MOST_METHODS};
use data::{
    CarriedType, End, Event, Fault, Gate, Question, Side, Thing, Type, LINE_WORDS, NO_CLICK, SLOTS, UNUSED, WORK_WORDS,
};

/// What examples/given-whole.c prints: the run that document 01 gives whole,
/// and what else it asks.
const PRINTED_BY_C: &str = "\
0 0 1 0 - -
3 0 2 0 - -
10 0 5 1 1 1
10 0 6 1 6 0
14 0 7 1 0 0
14 0 6 1 3 0
15 1 3 4 0 -
16 1 9 - - -
17 0 10 20 - -
end 1 18 9 0
processes 2, qubits 1, channels 1
qubit 0 is held by 1, as the last 4 lines say, at first by 0
same as itself: 1, as its first lines: 0
";

/// What examples/given-whole.cpp prints.
const PRINTED_BY_CPP: &str = "\
entry 14: process 0 gives qubit 0 to process 1
entry 15: process 1 applies gate 4 to qubit 0
entry 17: process 0 is stopped by fault 20
lanq 0.3: end 1, 9 lines
from its text: end 1, 9 lines
";

/// What examples/text.c prints: the second text of docs/TEXT.md, and one that is
/// refused.
const PRINTED_OF_TEXTS: &str = "\
words 90, methods 2, instructions 24
0 0 2 0 - -
10 0 5 1 1 1
10 0 6 1 6 0
13 0 1 0 - -
14 0 7 1 0 0
14 0 6 1 3 0
15 0 9 - - -
19 1 4 0 1 -
20 1 9 - - -
end 1 21 9 1
refused 31 at byte 46, line 4, column 5
";

/// What examples/desk.c prints: the same run, with who holds what after each
/// entry that changes it.
const PRINTED_BY_DESK: &str = "\
after entry 0: qubit 0 is held by 0
after entry 3: end 0 of channel 0 is held by 0
after entry 3: end 1 of channel 0 is held by 0
after entry 10: end 1 of channel 0 is held by 1
after entry 14: qubit 0 is held by 1
";

/// The repository's root.
fn root() -> PathBuf {
    Path::new(env!("CARGO_MANIFEST_DIR")).join("../..")
}

/// A compiler, by the environment's word for it or by its usual name.
struct Compiler {
    variable: &'static str,
    name: &'static str,
    warnings: &'static [&'static str],
}

const C: Compiler =
    Compiler { variable: "CC", name: "cc", warnings: &["-Wall", "-Wextra", "-Wpedantic", "-Wconversion", "-Werror"] };
const CPP: Compiler =
    Compiler { variable: "CXX", name: "c++", warnings: &["-Wall", "-Wextra", "-Wpedantic", "-Werror"] };

/// A source compiled under a standard, and what its program prints.
fn printed(compiler: &Compiler, standard: &str, source: &Path) -> String {
    let stem = source.file_stem().expect("a source has a name").to_string_lossy();
    let program = Path::new(env!("CARGO_TARGET_TMPDIR")).join(format!("{stem}-{standard}"));
    let name = std::env::var(compiler.variable).unwrap_or_else(|_| compiler.name.into());
    let compiled = Command::new(&name)
        .arg(format!("-std={standard}"))
        .args(compiler.warnings)
        .arg("-I")
        .arg(root().join("include"))
        .arg(source)
        .arg(root().join("target/staticlib/liblanq.a"))
        .arg("-o")
        .arg(&program)
        .output()
        .unwrap_or_else(|error| panic!("{name}: {error}"));
    assert!(compiled.status.success(), "{}", String::from_utf8_lossy(&compiled.stderr));
    let ran = Command::new(&program).output().expect("the program runs");
    assert!(ran.status.success());
    String::from_utf8(ran.stdout).expect("text")
}

#[test]
fn the_example_in_c_prints_the_worked_run() {
    let source = root().join("examples/given-whole.c");
    for standard in ["c99", "c11", "c17"] {
        assert_eq!(printed(&C, standard, &source), PRINTED_BY_C);
    }
}

#[test]
fn the_desk_shows_who_holds_what() {
    let source = root().join("examples/desk.c");
    for standard in ["c99", "c11", "c17"] {
        assert_eq!(printed(&C, standard, &source), PRINTED_BY_DESK);
    }
}

#[test]
fn the_example_of_texts_prints_table_run_and_refusal() {
    let source = root().join("examples/text.c");
    for standard in ["c99", "c11", "c17"] {
        assert_eq!(printed(&C, standard, &source), PRINTED_OF_TEXTS);
    }
}

/// README.md shows lines of the desk's program in C, and of the example in the
/// binding's documentation, which is run as it stands there.
#[test]
fn the_desk_in_the_readme() {
    let read = |path: &str| std::fs::read_to_string(root().join(path)).expect("it is there");
    let readme = read("README.md");
    let section = readme.split("\n## ").find(|section| section.starts_with("Who holds what")).expect("the section");
    let shown: Vec<&str> = section.lines().filter_map(|line| line.strip_prefix("    ")).map(str::trim).collect();
    let sources = [read("examples/desk.c"), read("rust/lanq/src/layout.rs")];
    let lines = |source: &str| -> Vec<String> {
        source.lines().map(|line| line.trim().trim_start_matches("/// ").trim().to_string()).collect()
    };
    let sources = sources.map(|source| lines(&source));
    let of_c = shown.iter().filter(|line| sources[0].iter().any(|one| one == *line)).count();
    let of_rust = shown.iter().filter(|line| sources[1].iter().any(|one| one == *line)).count();
    assert!(of_c >= 4 && of_rust >= 3 && of_c + of_rust >= shown.len(), "{shown:#?}");
    for line in shown {
        assert!(sources.iter().flatten().any(|one| one == line), "{line}");
    }
}

#[test]
fn the_example_in_cpp_prints_the_worked_run() {
    let source = root().join("examples/given-whole.cpp");
    for standard in ["c++11", "c++17", "c++20"] {
        assert_eq!(printed(&CPP, standard, &source), PRINTED_BY_CPP);
    }
}

/// The header's names with their numbers, from the types that have them.
fn numbers() -> Vec<(String, usize)> {
    let mut all: Vec<(String, usize)> = Vec::new();
    let mut add = |name: &str, number: usize| all.push((format!("LANQ_{name}"), number));
    let upper = |name: String| {
        let mut text = String::new();
        for (index, c) in name.chars().enumerate() {
            if index > 0 && c.is_uppercase() {
                text.push('_');
            }
            text.extend(c.to_uppercase());
        }
        text
    };
    for question in Question::ALL.into_iter().filter(|question| *question != Question::File) {
        add(&format!("REFUSED_{}", upper(format!("{question:?}"))), question.number().into());
    }
    End::ALL.iter().for_each(|end| add(&format!("END_{}", upper(format!("{end:?}"))), end.number().into()));
    Fault::ALL.iter().for_each(|fault| add(&format!("FAULT_{}", upper(format!("{fault:?}"))), fault.number().into()));
    Gate::ALL.iter().for_each(|gate| add(&format!("GATE_{gate}"), gate.number().into()));
    for (name, number) in op::NAMES.iter().zip(1..) {
        add(&format!("OP_{name}"), number);
    }
    for carried in CarriedType::ALL {
        let name = carried.to_string().to_uppercase();
        add(&format!("CARRIES_{name}"), carried.number().into());
        add(&format!("TYPE_{name}"), carried.as_type().number().into());
        add(&format!("TYPE_CHANNEL(LANQ_CARRIES_{name})"), Type::Channel(carried).number().into());
        add(&format!("TYPE_END(LANQ_CARRIES_{name})"), Type::End(carried).number().into());
    }
    for (name, thing) in [
        ("QUBIT", Thing::Qubit(0)),
        ("CHANNEL", Thing::Channel(0)),
        ("END_0", Thing::End(0, Side::Zero)),
        ("END_1", Thing::End(0, Side::One)),
    ] {
        add(&format!("THING_{name}"), thing.code().into());
    }
    for event in [
        Event::QubitMade { qubit: 0 },
        Event::ChannelMade { channel: 0 },
        Event::Gate { gate: Gate::X, qubit: 0, second: None },
        Event::Measured { qubit: 0, outcome: 0 },
        Event::Forked { child: 0, method: 0, arguments: 0 },
        Event::Gave { to: 0, thing: Thing::Qubit(0) },
        Event::Met { receiver: 0, channel: 0, side: Side::Zero },
        Event::Passed { value: 0 },
        Event::Finished,
        Event::Stopped { fault: Fault::Empty },
    ] {
        let name = event.name().to_uppercase().replace(' ', "_").replace("VALUE_PASSED", "PASSED");
        add(&format!("LINE_{name}"), event.line(0, 0).kind.into());
    }
    for (name, number) in [
        ("ACCEPTED", 0),
        ("TYPE_NONE", 0),
        ("UNUSED", UNUSED.into()),
        ("NOBODY", UNUSED.into()),
        ("NOT_MADE", 255),
        ("OUTCOME_0", 0),
        ("OUTCOME_1", 1),
        ("NO_CLICK", NO_CLICK.into()),
        ("LINE_WORDS", LINE_WORDS),
        ("WORK_WORDS", WORK_WORDS),
        ("SLOTS", SLOTS),
        ("MOST_METHODS", MOST_METHODS),
        ("MOST_INSTRUCTIONS", MOST_INSTRUCTIONS),
        ("TABLE_WORDS(3, 40)", 2 + 60 + 80),
        ("TABLE_WORDS(LANQ_MOST_METHODS, LANQ_MOST_INSTRUCTIONS)", lanq::MOST_TABLE_WORDS),
        ("MOST_TABLE_WORDS", lanq::MOST_TABLE_WORDS),
    ] {
        add(name, number);
    }
    all
}

#[test]
fn the_headers_numbers_are_ours() {
    let numbers = numbers();
    let mut source = "#include <stdio.h>\n#include \"lanq.h\"\nint main(void) {\n".to_string();
    for (name, _) in &numbers {
        writeln!(source, "  printf(\"%s %u\\n\", \"{name}\", (unsigned)({name}));").expect("a string takes it");
    }
    for name in ["LanqLine", "LanqTable", "LanqAnswer", "LanqHolder"] {
        writeln!(source, "  printf(\"%u\\n\", (unsigned)sizeof({name}));").expect("a string takes it");
    }
    source += "  return 0;\n}\n";
    let path = Path::new(env!("CARGO_TARGET_TMPDIR")).join("numbers.c");
    std::fs::write(&path, source).expect("the source can be written");
    let mut expected: String = numbers.iter().map(|(name, number)| format!("{name} {number}\n")).collect();
    expected += "12\n24\n48\n16\n";
    assert_eq!(printed(&C, "c99", &path), expected);
    // The same as C++, where the names are the same too.
    let same = path.with_file_name("numbers_again.cpp");
    std::fs::copy(&path, &same).expect("the source can be copied");
    assert_eq!(printed(&CPP, "c++11", &same), expected);
    // Every name of an enum is looked at, but those of limits that no type has.
    let header = std::fs::read_to_string(root().join("include/lanq.h")).expect("the header");
    let assigned =
        header.lines().flat_map(|line| line.split([',', '{', '}'])).filter_map(|part| part.split_once(" = "));
    let named: Vec<&str> = assigned.map(|(name, _)| name.trim()).filter(|name| name.starts_with("LANQ_")).collect();
    let limits = ["PARAMETERS", "PENDING", "FRAMES", "PROCESSES", "QUBITS", "CHANNELS", "ENTRIES"];
    let is_limit = |name: &str| limits.iter().any(|limit| name == format!("LANQ_MOST_{limit}"));
    assert!(named.len() > 70);
    for name in named {
        assert!(is_limit(name) || numbers.iter().any(|(one, _)| one == name), "{name}");
    }
}
