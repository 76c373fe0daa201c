//! Batches: every case of a directory, broken off and gone on with.

mod common;

use std::fs;
use std::path::{Path, PathBuf};
use std::process::Command;
use std::time::Instant;

use cli::json::Json;
use common::{bytes, examples, folder, lanq_in, main_of, write};

/// A directory with the examples, a case in a directory of its own, two that
/// are refused and one that cannot be read.
fn cases(name: &str) -> PathBuf {
    let folder = folder(name);
    let cases = folder.join("cases");
    fs::create_dir_all(cases.join("own")).expect("a folder");
    for example in examples() {
        write(&cases, &format!("{}.lqa", example.name), &example.text);
    }
    write(&cases.join("own"), "program.lqa", main_of("  NEWQ\n  DROP\n  RET"));
    write(&cases.join("own"), "schedule.txt", "0*2");
    write(&cases, "typed.bin", bytes(&main_of("  INT 1\n  RET")));
    write(&cases, "short.bin", [1, 2, 3]);
    write(&cases, "wrong.lqa", "method");
    write(&cases, "notes.txt", "no case");
    folder
}

/// The results of a file, by their cases' names.
fn results(path: &Path) -> Vec<(String, Json)> {
    let text = fs::read_to_string(path).expect("the results are there");
    let lines = text.lines().map(|line| Json::read(line).expect("JSON"));
    lines.map(|json| (json.get("case").and_then(Json::as_text).expect("a name").to_string(), json)).collect()
}

const NAMES: [&str; 11] = [
    "bb84.lqa",
    "given-whole.lqa",
    "half-evaluated.lqa",
    "own",
    "short.bin",
    "station-gone.lqa",
    "swapping.lqa",
    "teleport.lqa",
    "two-names.lqa",
    "typed.bin",
    "wrong.lqa",
];

const TABLE: &str = "\
11 cases: 8 ran, 2 refused, 1 not read
       1  end 0      the schedule is used up
       7  end 1      every process made has finished or stopped
       0  end 2      no process is able to move
       0  end 3      the lines of the next entry exceed what the trace still holds
       1  refused 5  types of operands
       1  refused 9  the input file
       3  fault 20   the slot read, or a value taken, stored, dropped or returned, is empty (processes)
       2  fault 33   the opposite end is held by the process itself, or by one that has finished or stopped (processes)
";

#[test]
fn every_case_in_the_order_of_the_names() {
    let folder = cases("batch");
    for jobs in ["1", "3", "20"] {
        let called = lanq_in(&folder, &["batch", "cases", "--jobs", jobs]);
        assert_eq!((called.status, called.out.as_str()), (Some(1), TABLE));
        assert!(called.notes.starts_with("cases/wrong.lqa:1:7: expected "), "{}", called.notes);
        let results = results(&folder.join("cases/results.jsonl"));
        let names: Vec<&str> = results.iter().map(|(name, _)| name.as_str()).collect();
        assert_eq!(names, NAMES);
        for left in ["results.jsonl.partial", "results.jsonl.new"] {
            assert!(!folder.join("cases").join(left).exists());
        }
        fs::remove_file(folder.join("cases/results.jsonl")).expect("the results are there");
    }
}

/// Each result is what the run of its case alone answers.
#[test]
fn results_are_those_of_the_runs() {
    let folder = cases("batch-results");
    lanq_in(&folder, &["batch", "cases", "--full"]);
    for (name, json) in results(&folder.join("cases/results.jsonl")) {
        let alone = lanq_in(&folder, &["run", "--json", &format!("cases/{name}")]);
        if name == "wrong.lqa" {
            assert!(json.get("error").is_some());
            continue;
        }
        let alone = Json::read(alone.out.trim_end()).expect("JSON");
        for key in
            ["format", "inputs", "machine", "schedule", "outcomes", "refused", "end", "faults", "trace", "processes"]
        {
            assert_eq!(json.get(key), alone.get(key), "{name}: {key}");
        }
    }
}

/// A batch that is broken off goes on: what the journal holds is not worked out
/// again, a line broken off in the middle is, and so is a case that was changed.
#[test]
fn a_batch_goes_on() {
    let folder = cases("batch-goes-on");
    let out = folder.join("cases/results.jsonl");
    lanq_in(&folder, &["batch", "cases"]);
    let all = fs::read_to_string(&out).expect("the results are there");
    let lines: Vec<&str> = all.lines().collect();
    fs::remove_file(&out).expect("the results are there");
    // A mark that no run writes shows which results are old ones.
    let marked = |line: &str| line.replace("\"end_text\":\"", "\"end_text\":\"old: ");
    let journal =
        format!("{}\n{}\n{}\n{}", marked(lines[8]), marked(lines[1]), marked(lines[3]), &marked(lines[2])[..90]);
    write(&folder.join("cases"), "results.jsonl.partial", journal);
    write(&folder.join("cases/own"), "schedule.txt", "0*3");
    let called = lanq_in(&folder, &["batch", "cases", "--jobs", "2"]);
    assert_eq!(called.status, Some(1));
    let results = results(&out);
    assert_eq!(results.iter().map(|(name, _)| name.as_str()).collect::<Vec<&str>>(), NAMES);
    let old: Vec<&str> =
        results.iter().filter(|(_, json)| json.to_string().contains("old: ")).map(|(name, _)| name.as_str()).collect();
    assert_eq!(old, ["given-whole.lqa", "two-names.lqa"]);
    assert!(!folder.join("cases/results.jsonl.partial").exists());
    // Called again it has nothing to do, and with the model all.
    lanq_in(&folder, &["batch", "cases"]);
    assert!(fs::read_to_string(&out).expect("the results").contains("old: "));
    lanq_in(&folder, &["batch", "cases", "--model"]);
    assert!(!fs::read_to_string(&out).expect("the results").contains("old: "));
}

/// A batch that is ended in the middle loses no result that it had.
#[test]
fn a_batch_that_is_ended_loses_nothing() {
    let folder = folder("batch-ended");
    fs::create_dir(folder.join("cases")).expect("a folder");
    for number in 0..200 {
        let text = main_of(&format!("again: INT {number}\n  DROP\n  JUMP again\nschedule 0*65535"));
        write(&folder.join("cases"), &format!("c{number:03}.lqa"), text);
    }
    let lanq =
        Command::new(env!("CARGO_BIN_EXE_lanq")).args(["batch", "cases", "--jobs", "1"]).current_dir(&folder).spawn();
    let mut lanq = lanq.expect("lanq starts");
    let partial = folder.join("cases/results.jsonl.partial");
    // It may be done before it is ended; then all results are there already.
    let begun = Instant::now();
    let kept = loop {
        let kept = fs::read_to_string(&partial).unwrap_or_default();
        if kept.lines().count() > 5 || begun.elapsed().as_secs() > 20 {
            break kept;
        }
        std::thread::yield_now();
    };
    let _ = lanq.kill();
    lanq.wait().expect("it has ended");
    assert_eq!(lanq_in(&folder, &["batch", "cases"]).status, Some(0));
    let out = fs::read_to_string(folder.join("cases/results.jsonl")).expect("the results are there");
    assert_eq!(out.lines().count(), 200);
    let whole = kept.rsplit_once('\n').map(|(whole, _)| whole).unwrap_or_default();
    assert!(whole.lines().all(|line| out.contains(line)));
    assert!(!partial.exists());
}

/// Parts, as the tasks of a job array have them, put together in the end.
#[test]
fn parts_make_the_whole() {
    let folder = cases("batch-parts");
    for part in ["1/3", "2/3", "3/3"] {
        let called = lanq_in(&folder, &["batch", "cases", "--part", part]);
        assert!(called.out.starts_with(if part == "3/3" { "3 cases" } else { "4 cases" }), "{}", called.out);
    }
    let first = results(&folder.join("cases/results.1-of-3.jsonl"));
    assert_eq!(
        first.iter().map(|(name, _)| name.as_str()).collect::<Vec<&str>>(),
        ["bb84.lqa", "own", "swapping.lqa", "typed.bin"]
    );
    let parts = ["1", "2", "3"].map(|part| format!("--use=cases/results.{part}-of-3.jsonl"));
    let words: Vec<&str> = ["batch", "cases"].into_iter().chain(parts.iter().map(String::as_str)).collect();
    assert_eq!(lanq_in(&folder, &words).out, TABLE);
    assert_eq!(results(&folder.join("cases/results.jsonl")).len(), 11);
}

/// One program for cases that have only a schedule or outcomes.
#[test]
fn one_program_for_all() {
    let folder = folder("batch-program");
    write(&folder, "program.lqa", &examples()[1].text);
    for (name, file, content) in
        [("a", "schedule.txt", "0*3"), ("b", "schedule.txt", "until-stuck"), ("c", "outcomes.txt", "1")]
    {
        let case = folder.join("cases").join(name);
        fs::create_dir_all(&case).expect("a folder");
        write(&case, file, content);
    }
    let called = lanq_in(&folder, &["batch", "cases", "--program", "program.lqa"]);
    assert_eq!(called.status, Some(0), "{called:?}");
    let results = results(&folder.join("cases/results.jsonl"));
    let number = |json: &Json, key| json.get(key).and_then(Json::as_number);
    let found: Vec<(&str, Option<i64>)> =
        results.iter().map(|(name, json)| (name.as_str(), number(json, "entries_used"))).collect();
    assert_eq!(found, [("a", Some(3)), ("b", Some(18)), ("c", Some(18))]);
    assert_eq!(lanq_in(&folder, &["batch", "cases"]).failed(1), "cases: has no case\n");
}

#[test]
fn what_a_batch_cannot_do() {
    let folder = folder("batch-unusable");
    assert!(lanq_in(&folder, &["batch", "none"]).failed(1).starts_with("none: cannot be read: "));
    fs::create_dir(folder.join("empty")).expect("a folder");
    assert_eq!(lanq_in(&folder, &["batch", "empty"]).failed(1), "empty: has no case\n");
    write(&folder.join("empty"), "a.lqa", main_of("  RET\nschedule 0"));
    let notes = lanq_in(&folder, &["batch", "empty", "--use", "none.jsonl"]).failed(1);
    assert!(notes.starts_with("none.jsonl: cannot be read: "), "{notes}");
    let notes = lanq_in(&folder, &["batch", "empty", "--out", "none/results.jsonl"]).failed(1);
    assert!(notes.starts_with("none/results.jsonl.partial: cannot be written: "), "{notes}");
    let called = lanq_in(&folder, &["batch", "empty", "--out", "all.jsonl"]);
    assert_eq!(called.status, Some(0));
    assert_eq!(results(&folder.join("all.jsonl")).len(), 1);
}
