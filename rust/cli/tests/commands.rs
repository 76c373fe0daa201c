//! `lanq` as it is called: each command on the examples, what goes to standard
//! output and what to standard error, and the exit status.

mod common;

use std::fs;

use cli::json::Json;
use common::{bytes, example, examples, folder, lanq, lanq_in, main_of, repository, write};
use model::owner::holder;

/// Compares with a file of tests/expected.
fn expect(name: &str, text: &str) {
    let path = repository("rust/cli/tests/expected").join(name);
    let expected = fs::read_to_string(&path).unwrap_or_else(|error| panic!("{}: {error}", path.display()));
    assert_eq!(text, expected, "{name}");
}

#[test]
fn help() {
    let overview = lanq(&["help"]).quiet();
    expect("help", &overview);
    assert_eq!(lanq(&["--help"]).quiet(), overview);
    let mut all = String::new();
    for name in ["run", "check", "explain", "timeline", "holder", "same", "asm", "list", "translate", "batch"] {
        assert!(overview.contains(&format!("\n    {name} ")), "{name}");
        let help = lanq(&["help", name]).quiet();
        assert!(help.starts_with(&format!("usage: lanq {name} ")), "{help}");
        assert_eq!(lanq(&[name, "--help"]).quiet(), help);
        all += &help;
        all += "\n";
    }
    expect("help-of-each", &all);
}

/// The version is that of the results: those of another one are not taken over.
#[test]
fn version() {
    let told = lanq(&["version"]).quiet();
    assert_eq!(lanq(&["--version"]).quiet(), told);
    let json = Json::read(lanq(&["run", "--json", "given-whole.lqa"]).quiet().trim_end()).expect("JSON");
    let version = json.get("version").and_then(Json::as_text).expect("a version");
    assert_eq!(told, format!("lanq {version}\n"));
    assert!(lanq(&["version", "more"]).failed(2).starts_with("lanq: no command version"));
}

/// A wrong call has status 2, says what is wrong and how it is called.
#[test]
fn wrong_calls() {
    let run = "usage: lanq run CASE [--json | --csv] [options]";
    for (words, told, usage) in [
        (&[][..], "lanq: wants a command", "usage: lanq COMMAND ..."),
        (&["jump"], "lanq: no command jump", "usage: lanq COMMAND ..."),
        (&["help", "jump"], "lanq: no command jump", "usage: lanq COMMAND ..."),
        (&["run"], "lanq run: wants a case", run),
        (&["run", "a", "b"], "lanq run: wants one case", run),
        (&["run", "a", "--fast"], "lanq run: no option --fast", run),
        (&["run", "a", "--json=1"], "lanq run: --json takes no value", run),
        (&["run", "a", "--json", "--csv"], "lanq run: --json and --csv exclude each other", run),
        (&["run", "a", "--schedule"], "lanq run: --schedule wants its value, S", run),
        (&["run", "a", "--room", "1", "--room", "2"], "lanq run: --room is given twice", run),
        (&["run", "a", "--room", "x"], "lanq run: --room wants a number from 0 on, not x", run),
        (
            &["run", "a", "--schedule", "0,x"],
            "lanq run: --schedule:1:3: expected a process from 0 to 255, `round-robin:N` or `until-stuck`, found `x`",
            run,
        ),
        (&["run", "a", "--outcomes=0a"], "lanq run: --outcomes:1:1: expected a number or a name, found `0a`", run),
        (
            &["run", "a", "--outcomes=0", "--outcomes-file", "b"],
            "lanq run: --outcomes and --outcomes-file exclude each other",
            run,
        ),
        (&["same", "a"], "lanq same: wants two cases or traces", "usage: lanq same CASE|TRACE CASE|TRACE [--model]"),
        (
            &["holder", "teleport.lqa", "--qubit", "65536"],
            "lanq holder: --qubit wants a number to 65535",
            "usage: lanq holder CASE|TRACE [--qubit Q] [--lines K | --after N] [options]",
        ),
        (
            &["timeline", "a", "--entries", "9-3"],
            "lanq timeline: --entries wants two numbers, as 0-200, not 9-3",
            "usage: lanq timeline CASE > FILE.svg [options]",
        ),
        (
            &["batch", "a", "--jobs", "0"],
            "lanq batch: --jobs wants a number from 1 on, not 0",
            "usage: lanq batch DIR [--jobs N] [options]",
        ),
        (
            &["batch", "a", "--part", "3/2"],
            "lanq batch: --part wants K/M with K from 1 to M, not 3/2",
            "usage: lanq batch DIR [--jobs N] [options]",
        ),
    ] {
        let notes = lanq(words).failed(2);
        assert!(notes.starts_with(&format!("{told}\n{usage}\n")), "{words:?}: {notes}");
    }
}

/// What cannot be read has status 1, and nothing is written to standard output.
#[test]
fn files_that_cannot_be_used() {
    let folder = folder("unusable");
    let wrong = example("bb84").text + "    0 300\n";
    let lines = wrong.lines().count();
    write(&folder, "wrong.lqa", wrong);
    write(&folder, "wrong.txt", "0 1\n1 two");
    write(&folder, "wrong.trace", "0 0 1");
    let right = example("teleport").path;
    let right = right.to_str().expect("a path in UTF-8");
    for command in ["run", "check", "explain", "timeline", "holder", "asm", "list"] {
        let notes = lanq_in(&folder, &[command, "wrong.lqa"]).failed(1);
        assert_eq!(notes, format!("wrong.lqa:{lines}:7: expected a number from 0 to 255, found `300`\n"));
        let notes = lanq_in(&folder, &[command, "none.lqa"]).failed(1);
        assert!(notes.starts_with("none.lqa: cannot be read: "), "{notes}");
    }
    let notes = lanq_in(&folder, &["run", right, "--schedule-file", "wrong.txt"]).failed(1);
    assert!(notes.starts_with("wrong.txt:2:3: expected a process from 0 to 255"), "{notes}");
    let notes = lanq_in(&folder, &["run", right, "--outcomes-file", "none.txt"]).failed(1);
    assert!(notes.starts_with("none.txt: cannot be read: "), "{notes}");
    let notes = lanq_in(&folder, &["holder", "wrong.trace"]).failed(1);
    assert_eq!(notes, "wrong.trace:1:1: expected six columns, found 3\n");
}

/// A case in a directory, with each part in its file.
#[test]
fn a_case_in_a_directory() {
    let folder = folder("directory");
    let case = folder.join("case");
    fs::create_dir(&case).expect("a folder");
    assert_eq!(lanq_in(&folder, &["run", "case"]).failed(1), "case: has no program.lqa, program.lanq or program.bin\n");
    let example = example("two-names");
    let (program, _) = example.text.split_once("\nschedule\n").expect("a schedule");
    write(&case, "program.lqa", program);
    let unscheduled = lanq_in(&folder, &["run", "case"]);
    assert_eq!((unscheduled.status, unscheduled.out.as_str()), (Some(0), "end 0 0 0 0\n"));
    let note = "case/program.lqa: there is no schedule, so no entry is run; --schedule until-stuck makes one\n";
    assert_eq!(unscheduled.notes, note);
    write(&case, "schedule.txt", "0*12 1 0*2 0 0 # and the station\n1*6");
    write(&case, "outcomes.txt", "1\n");
    assert_eq!(lanq_in(&folder, &["run", "case"]).quiet(), example.expected);
    // Options go before the files.
    let cut = lanq_in(&folder, &["run", "case", "--schedule", "0,0"]).quiet();
    assert_eq!(cut, "0 0 1 0 - -\nend 0 2 1 0\n");
    let other = lanq_in(&folder, &["run", "case", "--outcomes", "0"]).quiet();
    assert!(other.contains("\n20 1 4 0 0 -\n"), "{other}");
    write(&case, "program.bin", bytes(&example.text));
    assert_eq!(lanq_in(&folder, &["run", "case"]).failed(1), "case: has two programs, program.lqa and program.bin\n");
}

/// A program by an option, alone and in place of a case's.
#[test]
fn a_program_by_an_option() {
    let folder = folder("program");
    let teleport = example("teleport");
    write(&folder, "teleport.lqa", &teleport.text);
    let other = write(&folder, "other.lqa", main_of("  RET\nschedule 0*3"));
    assert_eq!(lanq_in(&folder, &["run", "--program", "teleport.lqa"]).quiet(), teleport.expected);
    // What stands with the program goes before what stands with the case.
    let other = other.to_str().expect("a path in UTF-8");
    assert_eq!(lanq_in(&folder, &["run", "teleport.lqa", "--program", other]).quiet(), "0 0 9 - - -\nend 1 1 1 0\n");
}

#[test]
fn schedules_that_are_made() {
    let called = lanq(&["run", "teleport.lqa", "--schedule", "until-stuck"]);
    assert_eq!(called.status, Some(0));
    let made = called.notes.strip_prefix("teleport.lqa: made --schedule '").and_then(|rest| rest.strip_suffix("'\n"));
    let made = made.expect("the schedule is noted");
    assert_eq!(lanq(&["run", "teleport.lqa", "--schedule", made]).quiet(), called.out);
    assert!(called.out.lines().last().is_some_and(|last| last.starts_with("end 1 ")), "{}", called.out);
    let folder = folder("endless");
    write(&folder, "endless.lqa", main_of("again: JUMP again"));
    let notes = lanq_in(&folder, &["run", "endless.lqa", "--schedule", "until-stuck"]).failed(1);
    let why = "until-stuck: no end within 65535 entries; --schedule round-robin:N runs N of them";
    assert_eq!(notes, format!("endless.lqa: {why}\n"));
}

#[test]
fn room_for_the_trace() {
    let cut = lanq(&["run", "given-whole.lqa", "--room", "3"]).quiet();
    assert!(cut.ends_with("\n3 0 2 0 - -\nend 3 10 2 0\n"), "{cut}");
}

/// The printing program's line on standard output, the words on standard error.
#[test]
fn refusals() {
    let folder = folder("refused");
    write(&folder, "typed.lqa", main_of("  slots qbit q\n  INT 7\n  PUT q\n  DROP\n  RET"));
    let words = "typed.lqa:4:3: refused 5 1: PUT q wants qbit, the top is int\n    \
                 at main 1 (table 1, line 4): PUT q\n    question 5: With types alone: ";
    for command in [&["run", "typed.lqa"][..], &["run", "typed.lqa", "--csv"], &["run", "typed.lqa", "--model"]] {
        let called = lanq_in(&folder, command);
        assert_eq!((called.status, called.out.as_str()), (Some(1), "refused 5 1\n"));
        assert!(called.notes.starts_with(words), "{}", called.notes);
    }
    for command in ["check", "explain", "timeline", "holder"] {
        assert!(lanq_in(&folder, &[command, "typed.lqa"]).failed(1).starts_with(words));
    }
    let json = lanq_in(&folder, &["run", "typed.lqa", "--json"]);
    assert_eq!(json.status, Some(1));
    let object = Json::read(&json.out).expect("JSON");
    let refused = object.get("refused").expect("it is refused");
    assert_eq!(refused.to_string(), "{\"number\":5,\"place\":1,\"rule\":\"PUT q wants qbit, the top is int\",\"method\":0,\"method_name\":\"main\",\"instruction\":1,\"line\":4,\"column\":3}");
    // Of a table without a text, the line of its listing.
    write(&folder, "typed.bin", bytes(&main_of("  slots qbit q\n  INT 7\n  PUT q\n  DROP\n  RET")));
    let notes = lanq_in(&folder, &["check", "typed.bin"]).failed(1);
    assert!(notes.starts_with("typed.bin: refused 5 1: PUT s0 wants qbit, the top is int\n    at main 1 (table 1, line 4 of the listing): PUT s0\n"), "{notes}");
    let listed = lanq_in(&folder, &["list", "typed.bin"]).quiet();
    assert_eq!(listed.lines().nth(3), Some("    PUT s0"));
}

#[test]
fn refusals_at_other_places() {
    let folder = folder("refused-elsewhere");
    let check = |name: &str, content: &[u8], words: &[&str]| {
        write(&folder, name, content);
        let notes = lanq_in(&folder, &[&["check", name], words].concat()).failed(1);
        notes.lines().take(2).map(str::trim).collect::<Vec<&str>>().join(" | ")
    };
    let row = main_of("  RET\nmethod raw(9) odd()\n  RET");
    assert_eq!(
        check("row.lqa", row.as_bytes(), &[]),
        "row.lqa:3:15: refused 3 1: the return type is 9, which is no type | at method odd (line 3)"
    );
    let op = main_of("  RET\nmethod void odd()\n  NEWQ\n  raw 10 9\n  RET");
    assert_eq!(
        check("op.lqa", op.as_bytes(), &[]),
        "op.lqa:5:3: refused 4 2: raw 10 9: the argument must be a gate, 1 to 8 | at odd 1 (table 2, line 5): raw 10 9"
    );
    let right = main_of("  RET\noutcomes 0 1 7");
    assert_eq!(
        check("outcomes.lqa", right.as_bytes(), &[]),
        "outcomes.lqa: refused 6 2: the outcome is 7, not 0 to 2 | at outcome 2, counted from 0"
    );
    assert_eq!(
        check("schedule.lqa", right.as_bytes(), &["--outcomes=", "--schedule=0*65535,0"]),
        "schedule.lqa: refused 7 0: the schedule has 65536 entries, at most 65535 are run | question 7: Has the schedule at most 65,535 entries?"
    );
    let mut file = bytes(&main_of("  RET"));
    file[30] = 0;
    assert_eq!(check("pairs.bin", &file, &[]), "pairs.bin: refused 2 0: the method has no instruction | at method 0");
    file[26] = 2;
    assert_eq!(
        check("sizes.bin", &file, &[]),
        "sizes.bin: refused 1 0: the table has 24 words, for its M and N it must have 26 | question 1: Are M and N in range, and has the table 2 + 20M + 2N words?"
    );
    let mut file = bytes(&main_of("  RET"));
    file[34] = 200;
    assert_eq!(
        check("parameters.bin", &file, &[]),
        "parameters.bin: refused 3 0: it has 200 parameters, not 0 to 8 | at main"
    );
    let called = {
        write(&folder, "short.bin", [1, 2, 3]);
        lanq_in(&folder, &["run", "short.bin"])
    };
    assert_eq!((called.status, called.out.as_str()), (Some(1), "refused 9 0\n"));
    assert!(
        called.notes.starts_with("short.bin: refused 9 0: its length is 3, the header alone has 24 bytes\n"),
        "{}",
        called.notes
    );
    let json = lanq_in(&folder, &["run", "short.bin", "--json"]);
    assert!(json.out.contains("\"refused\":{\"number\":9,\"place\":0,"), "{}", json.out);
}

#[test]
fn checks() {
    for example in examples() {
        let file = format!("{}.lqa", example.name);
        let said = lanq(&["check", &file]).quiet();
        assert!(said.starts_with(&format!("{file}: accepted; methods ")), "{said}");
        assert_eq!(lanq(&["check", &file, "--model"]).quiet(), said);
    }
    let said = lanq(&["check", "given-whole.lqa"]).quiet();
    assert_eq!(said, "given-whole.lqa: accepted; methods 2, instructions 22, entries 18, outcomes 0\n");
}

/// To the input file and back to text.
#[test]
fn asm_and_list() {
    let folder = folder("asm");
    for example in examples() {
        let path = example.path.to_str().expect("a path in UTF-8");
        let assembled = std::process::Command::new(env!("CARGO_BIN_EXE_lanq")).args(["asm", path]).output();
        let assembled = assembled.expect("lanq starts");
        assert!(assembled.status.success() && assembled.stderr.is_empty());
        assert_eq!(assembled.stdout, bytes(&example.text));
        write(&folder, "case.bin", &assembled.stdout);
        let listed = lanq_in(&folder, &["list", "case.bin"]).quiet();
        assert_eq!(bytes(&listed), assembled.stdout);
        assert_eq!(lanq_in(&folder, &["run", "case.bin"]).quiet(), example.expected);
    }
    write(&folder, "long.lqa", main_of("  RET\nschedule 0*65465"));
    let notes = lanq_in(&folder, &["asm", "long.lqa"]).failed(1);
    assert_eq!(notes, "long.lqa: has 65537 bytes as an input file, at most 65536 are read\n");
}

#[test]
fn holders() {
    let held = lanq(&["holder", "teleport.lqa"]).quiet();
    let expected = "\
qubit 0 is held by process 1, as line 9 says: 24 1 1 0 - -
qubit 1 is held by process 1, as line 17 says: 42 0 6 1 3 1
qubit 2 is held by process 2, as line 19 says: 45 0 6 2 3 2
";
    assert_eq!(held, expected);
    assert_eq!(lanq(&["holder", "teleport.lqa", "--model"]).quiet(), expected);
    assert_eq!(lanq(&["holder", "teleport.lqa", "--qubit", "2"]).quiet(), "2\n");
    assert_eq!(lanq(&["holder", "teleport.lqa", "--qubit", "2", "--lines", "16"]).quiet(), "0\n");
    assert_eq!(lanq(&["holder", "teleport.lqa", "--qubit", "2", "--lines", "5"]).quiet(), "nobody\n");
    // The line that decides is one of the first lines, however far back it is.
    let at_16 = "\
qubit 0 is held by process 1, as line 9 says: 24 1 1 0 - -
qubit 1 is held by process 0, as line 12 says: 31 0 1 1 - -
qubit 2 is held by process 0, as line 14 says: 34 0 1 2 - -
";
    let at_10 = "\
qubit 0 is held by process 1, as line 9 says: 24 1 1 0 - -
qubit 1 is held by nobody, lines read: 10
qubit 2 is held by nobody, lines read: 10
";
    for (lines, told) in [("16", at_16), ("10", at_10), ("1000", expected)] {
        assert_eq!(lanq(&["holder", "teleport.lqa", "--lines", lines]).quiet(), told);
        assert_eq!(lanq(&["holder", "teleport.lqa", "--lines", lines, "--model"]).quiet(), told);
    }
    // The same from a trace that was kept, in both forms.
    let folder = folder("holder");
    write(&folder, "kept.trace", example("teleport").expected);
    write(&folder, "kept.csv", lanq(&["run", "teleport.lqa", "--csv"]).quiet());
    for file in ["kept.trace", "kept.csv"] {
        assert_eq!(lanq_in(&folder, &["holder", file]).quiet(), expected);
    }
}

/// What the run on the first entries has stored, against the lines that the whole
/// run has written by then.
#[test]
fn holders_after_an_entry() {
    let after = |words: &[&str]| lanq(&[&["holder", "teleport.lqa", "--after"], words].concat());
    assert_eq!(after(&["0"]).quiet(), "");
    let lines = example("teleport").expected;
    let lines: Vec<[u16; 6]> = lines
        .lines()
        .filter(|line| !line.starts_with("end"))
        .map(|line| {
            let columns = line.split(' ').map(|column| column.parse().unwrap_or(65_535));
            columns.collect::<Vec<u16>>().try_into().expect("six columns")
        })
        .collect();
    for entries in [1, 20, 25, 43, 60, 95, 1_000] {
        let written = lines.iter().take_while(|line| usize::from(line[0]) < entries);
        let written: Vec<data::Line> = written.map(|words| data::Line::from_words(*words)).collect();
        let told = after(&[&entries.to_string()]).quiet();
        assert_eq!(after(&[&entries.to_string(), "--model"]).quiet(), told);
        for thing in data::Holders::things() {
            let held = holder(&written, thing).map(|process| format!("{thing} is held by process {process}"));
            let line = told.lines().find(|line| line.starts_with(&format!("{thing} is")));
            let line = line.map(|line| line.split(',').next().unwrap_or(line).to_string());
            assert_eq!(line, held, "after {entries} entries");
        }
    }
    let last = after(&["95"]).quiet();
    assert!(last.contains("qubit 2 is held by process 2, which has finished\n"), "{last}");
    assert_eq!(after(&["43", "--qubit", "1"]).quiet(), "1\n");
    assert_eq!(after(&["43", "--qubit", "3"]).quiet(), "nobody\n");
    let wrong = after(&["43", "--lines", "2"]).failed(2);
    assert!(wrong.starts_with("lanq holder: --lines and --after exclude each other\n"), "{wrong}");
    let wrong = lanq(&["holder", "kept.trace", "--after", "2"]).failed(2);
    assert!(wrong.starts_with("lanq holder: --after wants a case, for a trace stores no holders\n"), "{wrong}");
}

#[test]
fn same_lines() {
    let folder = folder("same");
    let teleport = example("teleport");
    write(&folder, "teleport.lqa", &teleport.text);
    write(&folder, "kept.trace", &teleport.expected);
    // Every entry's number one higher.
    let later = teleport.expected.lines().map(|line| match line.split_once(' ') {
        Some((entry, rest)) if !line.starts_with("end") => {
            format!("{} {rest}\n", entry.parse::<u16>().expect("a number") + 1)
        }
        _ => String::new(),
    });
    write(&folder, "later.trace", later.collect::<String>());
    for other in ["kept.trace", "later.trace", "teleport.lqa"] {
        assert_eq!(lanq_in(&folder, &["same", "teleport.lqa", other]).quiet(), "same: 38 lines\n");
        assert_eq!(lanq_in(&folder, &["same", "teleport.lqa", other, "--model"]).quiet(), "same: 38 lines\n");
    }
    write(&folder, "short.trace", "0 0 2 0 - -\n");
    let called = lanq_in(&folder, &["same", "kept.trace", "short.trace"]);
    assert_eq!((called.status, called.out.as_str()), (Some(1), "different: 38 and 1 lines\n"));
    write(&folder, "other.trace", teleport.expected.replace("56 1 4 0 1 -", "56 1 4 0 0 -"));
    let called = lanq_in(&folder, &["same", "kept.trace", "other.trace"]);
    assert_eq!(called.status, Some(1));
    assert!(called.out.ends_with(" is 56 1 4 0 1 - and 56 1 4 0 0 -\n"), "{}", called.out);
}

/// Lines that differ in their entries alone are told apart by the first gap,
/// where there are as many of them.
#[test]
fn same_lines_at_other_times() {
    let folder = folder("same-times");
    let whole = example("given-whole");
    write(&folder, "given.lqa", &whole.text);
    // Two idle entries before the last one.
    write(&folder, "idles.lqa", whole.text.replace("0*11 1 0 0 0 1 1 0", "0*11 1 0 0 0 1 1 7 7 0"));
    write(&folder, "idles-first.lqa", whole.text.replace("0*11 1 0 0 0 1 1 0", "7 7 0*11 1 0 0 0 1 1 0"));
    let told = "different: from line 7 to line 8, counted from 0, the entry changes by 1 and 3\n";
    for machine in [&[][..], &["--model"]] {
        let same = |one, other| lanq_in(&folder, &[&["same", one, other], machine].concat());
        let called = same("given.lqa", "idles.lqa");
        assert_eq!((called.status, called.out.as_str()), (Some(1), told));
        assert_eq!(same("given.lqa", "idles-first.lqa").quiet(), "same: 9 lines\n");
    }
    // Backwards, which no run does; and in lines that one trace alone has.
    write(&folder, "back.trace", "5 0 9 - - -\n2 1 9 - - -\n");
    write(&folder, "forth.trace", "5 0 9 - - -\n8 1 9 - - -\n");
    let called = lanq_in(&folder, &["same", "back.trace", "forth.trace"]);
    assert!(called.out.ends_with(" from line 0 to line 1, counted from 0, the entry changes by -3 and 3\n"));
    write(&folder, "more.trace", "5 0 9 - - -\n9 1 9 - - -\n9 2 9 - - -\n");
    let called = lanq_in(&folder, &["same", "forth.trace", "more.trace"]);
    assert_eq!((called.status, called.out.as_str()), (Some(1), "different: 2 and 3 lines\n"));
}

/// An outcome 2 is no click, by an option, in a text and in a file.
#[test]
fn outcomes_without_a_click() {
    let folder = folder("no-click");
    let two_names = example("two-names");
    let expected = two_names.expected.replace("20 1 4 0 1 -", "20 1 4 0 2 -");
    assert_ne!(expected, two_names.expected);
    write(&folder, "text.lqa", two_names.text.replace("outcomes\n    1", "outcomes\n    2"));
    write(&folder, "outcomes.txt", "2\n");
    for machine in [&[][..], &["--model"]] {
        assert_eq!(lanq(&[&["run", "two-names.lqa", "--outcomes", "2"], machine].concat()).quiet(), expected);
        assert_eq!(lanq_in(&folder, &[&["run", "text.lqa"], machine].concat()).quiet(), expected);
        let from_file = &["run", "text.lqa", "--outcomes-file", "outcomes.txt"];
        assert_eq!(lanq_in(&folder, &[&from_file[..], machine].concat()).quiet(), expected);
    }
    let called = lanq(&["run", "two-names.lqa", "--outcomes", "3"]);
    assert_eq!((called.status, called.out.as_str()), (Some(1), "refused 6 0\n"));
    assert!(called.notes.starts_with("two-names.lqa: refused 6 0: the outcome is 3, not 0 to 2\n"), "{}", called.notes);
}

#[test]
fn results_for_programs() {
    expect("given-whole.json", &lanq(&["run", "given-whole.lqa", "--json"]).quiet());
    expect("two-names.csv", &lanq(&["run", "two-names.lqa", "--csv"]).quiet());
    for example in examples() {
        let text = lanq(&["run", &format!("{}.lqa", example.name), "--json"]).quiet();
        assert_eq!(text.lines().count(), 1);
        let object = Json::read(text.trim_end()).expect("JSON");
        assert_eq!(format!("{object}\n"), text);
        let number = |key| object.get(key).and_then(Json::as_number).expect("a number");
        let answer = format!(
            "end {} {} {} {}",
            number("end"),
            number("entries_used"),
            number("lines_written"),
            number("outcomes_used")
        );
        assert_eq!(example.expected.lines().last(), Some(answer.as_str()));
        assert_eq!(object.get("trace").map(|trace| trace.as_list().len() as i64), Some(number("lines_written")));
    }
}
