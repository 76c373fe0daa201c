//! Each example prints what stands beside it, whoever runs it.

mod common;

use std::io::Write;
use std::process::{Command, Stdio};

use common::{bytes, example, examples, lanq, repository};
use model::print::print;

#[test]
fn the_command_prints_the_examples() {
    for example in examples() {
        let file = format!("{}.lqa", example.name);
        assert_eq!(lanq(&["run", &file]).quiet(), example.expected);
        assert_eq!(lanq(&["run", &file, "--model"]).quiet(), example.expected);
    }
}

#[test]
fn the_model_prints_the_examples() {
    for example in examples() {
        let printed = print(&bytes(&example.text));
        assert_eq!(printed, example.expected, "{}", example.name);
    }
}

/// The proved printing program prints the same; `rt` builds it.
#[test]
fn the_program_prints_the_examples() {
    for example in examples() {
        let mut program = Command::new(repository("crates/print_run/out/print_run"))
            .stdin(Stdio::piped())
            .stdout(Stdio::piped())
            .spawn()
            .expect("crates/print_run/out/print_run is there once the crates are proved");
        let mut input = program.stdin.take().expect("its standard input is open");
        input.write_all(&bytes(&example.text)).expect("it reads a whole file");
        drop(input);
        let output = program.wait_with_output().expect("it ends");
        assert_eq!(String::from_utf8_lossy(&output.stdout), example.expected, "{}", example.name);
    }
}

#[test]
fn examples_start_with_a_comment() {
    for example in examples() {
        assert!(example.text.starts_with("# "), "{}", example.name);
    }
}

/// Every process of a protocol finishes, or a fault stops it where the header
/// says so.
#[test]
fn examples_end_as_their_headers_say() {
    let expected = [
        ("bb84", 0, 20),
        ("given-whole", 1, 20),
        ("half-evaluated", 1, 20),
        ("station-gone", 2, 33),
        ("swapping", 0, 20),
        ("teleport", 0, 20),
        ("two-names", 1, 20),
    ];
    let names: Vec<String> = examples().into_iter().map(|example| example.name).collect();
    assert_eq!(names, expected.map(|(name, _, _)| name));
    for (name, stops, fault) in expected {
        let printed = example(name).expected;
        let last = printed.lines().last().unwrap_or_default();
        assert!(last.starts_with("end 1 "), "{name}");
        let kind = |line: &str| line.split(' ').skip(2).take(2).collect::<Vec<_>>().join(" ");
        let kinds: Vec<String> = printed.lines().map(kind).collect();
        let stopped = kinds.iter().filter(|kind| kind.starts_with("10 "));
        assert_eq!(stopped.clone().count(), stops, "{name}");
        assert!(stopped.into_iter().all(|kind| *kind == format!("10 {fault}")), "{name}");
    }
}

/// With a click the relay of station-gone.lqa hands the qubit on.
#[test]
fn the_station_that_stays() {
    let called = lanq(&["run", "station-gone.lqa", "--outcomes", "0,1", "--schedule", "until-stuck"]);
    assert_eq!(called.status, Some(0));
    let kinds: Vec<&str> = called.out.lines().filter_map(|line| line.split(' ').nth(2)).collect();
    assert_eq!(kinds.iter().filter(|kind| **kind == "7").count(), 2, "{}", called.out);
    assert_eq!(kinds.iter().filter(|kind| **kind == "9").count(), 3, "{}", called.out);
}
