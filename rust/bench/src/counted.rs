//! Machine instructions, counted by callgrind. What a program does before its
//! first entry falls out of the difference of two lengths.

use std::env;
use std::fs;
use std::process::Command;

use crate::checks;
use crate::runs::{self, ENTRIES};
use crate::traces;

/// What the end of a run costs hangs on who can move there, so it is left out
/// where single entries are counted.
const LEFT_OUT: &str = "ability::ending::";

/// Instructions per entry of every run workload and of every call on a trace,
/// or why there are none.
pub fn print() -> Result<(), String> {
    println!("{:14} instructions per entry", "workload");
    for run in runs::all() {
        println!("{:14} {:.1}", run.name, per(run.name, ENTRIES / 2, ENTRIES)?);
    }
    println!("{:14} {:>6} instructions of one call", "call", "lines");
    for call in traces::all() {
        for lines in call.lines {
            println!("{:14} {lines:6} {}", call.name, within(call.function, call.name, *lines)?);
        }
    }
    Ok(())
}

/// How the instructions grow: with the entries of a run, with what an entry's
/// cost may hang on, and with the table that is checked.
pub fn print_growth() -> Result<(), String> {
    println!("{:14} instructions of the whole run", "entries");
    for entries in [15_000, 30_000, 45_000, 60_000] {
        println!("{entries:<14} {}", within("lanq_run", "arithmetic", entries)?);
    }
    println!("{:14} instructions per entry", "run");
    for run in runs::growing() {
        println!("{:14} {:.1}", run.name, per(run.name, ENTRIES / 2, ENTRIES)?);
    }
    println!("{:14} instructions of one check", "table");
    for check in checks::growing() {
        println!("{:14} {:.0}", check.name, per(check.name, 10, 20)?);
    }
    Ok(())
}

/// Instructions of one more entry, or of one more call of a check.
fn per(name: &str, short: usize, long: usize) -> Result<f64, String> {
    let more = instructions(name, long)? - instructions(name, short)?;
    Ok(more as f64 / (long - short) as f64)
}

/// Instructions of `count` entries of one workload, one by one, from entry
/// `from` on.
pub fn print_each(name: &str, from: usize, count: usize) -> Result<(), String> {
    let run = runs::all().into_iter().find(|run| run.name == name);
    let run = run.ok_or(format!("no run workload {name}"))?;
    if from + count > ENTRIES {
        return Err(format!("a workload has {ENTRIES} entries"));
    }
    println!("entry process instructions");
    let mut before = instructions(name, from)?;
    for entry in from..from + count {
        let after = instructions(name, entry + 1)?;
        println!("{entry:5} {:7} {:12}", run.named(entry), after - before);
        before = after;
    }
    Ok(())
}

/// The instructions of this program running one workload once.
fn instructions(name: &str, count: usize) -> Result<i64, String> {
    callgrind(name, count, &[])
}

/// Those of them that are run while a function of the C interface is called.
fn within(function: &str, name: &str, count: usize) -> Result<i64, String> {
    callgrind(name, count, &[format!("--toggle-collect={function}")])
}

fn callgrind(name: &str, count: usize, more: &[String]) -> Result<i64, String> {
    let program = env::current_exe().map_err(|error| error.to_string())?;
    let counts = env::temp_dir().join(format!("bench-{}.counts", std::process::id()));
    let output = Command::new("valgrind")
        .args(["--tool=callgrind", "--compress-strings=no", "--compress-pos=no"])
        .arg(format!("--callgrind-out-file={}", counts.display()))
        .args(more)
        .arg(program)
        .args(["--case", name, &count.to_string()])
        .output()
        .map_err(|error| format!("valgrind: {error}"))?;
    let read = fs::read_to_string(&counts);
    let _ = fs::remove_file(&counts);
    match read {
        Ok(text) => Ok(own_instructions(&text)),
        Err(_) => Err(format!("valgrind counted nothing: {}", String::from_utf8_lossy(&output.stderr))),
    }
}

/// The sum over the functions of what each runs itself: a line of a function
/// is a place and a count, but the one after `calls=` is the callee's.
fn own_instructions(text: &str) -> i64 {
    let mut sum = 0;
    let mut counts = false;
    let mut called = false;
    for line in text.lines() {
        if let Some(name) = line.strip_prefix("fn=") {
            counts = !name.contains(LEFT_OUT);
        } else if line.starts_with("calls=") {
            called = true;
        } else if line.starts_with(|first: char| first.is_ascii_digit()) {
            let count = line.split_whitespace().nth(1).and_then(|word| word.parse::<i64>().ok());
            if counts && !called {
                sum += count.unwrap_or(0);
            }
            called = false;
        }
    }
    sum
}
