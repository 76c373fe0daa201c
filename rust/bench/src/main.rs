//! Times the proved library, and counts its machine instructions.
//!
//! - `bench` runs every workload and prints nanoseconds per entry, or per
//!   table instruction for the check.
//! - `bench --case NAME [COUNT]` runs one workload once, on the first COUNT
//!   entries of its schedule; a check COUNT times; a call on a trace with COUNT
//!   lines.
//! - `bench --instructions` counts the run workloads' instructions per entry
//!   under callgrind, and those of one call on a trace.
//! - `bench --growth` counts how they grow with entries, table, frames and
//!   processes.
//! - `bench --texts [BYTES]` translates LanQ texts, ordinary ones and long ones of a
//!   million bytes or of BYTES, and runs one, and prints milliseconds.
//! - `bench --each NAME FROM COUNT` counts COUNT entries of one of them, one by
//!   one, from entry FROM on.

mod checks;
mod counted;
mod programs;
mod runs;
mod texts;
mod traces;

use std::env;
use std::process::exit;

use checks::Check;
use runs::{Buffers, Run, ENTRIES};

fn times() {
    println!("{:18} {:>8} {:>7}", "", "ns", "idle");
    println!("per entry, of {ENTRIES}");
    let mut lent = Buffers::new();
    for run in runs::all() {
        println!("{:18} {:8.1} {:5.1} %", run.name, run.timed(20, &mut lent), run.idle());
    }
    println!("per table instruction");
    for check in checks::all() {
        println!("{:18} {:8.1}", check.name, check.timed(2_000));
    }
}

/// One workload, for callgrind.
fn one(name: &str, count: usize) -> Result<(), String> {
    let runs: Vec<Run> = runs::all().into_iter().chain(runs::growing()).collect();
    let checks: Vec<Check> = checks::all().into_iter().chain(checks::growing()).collect();
    if let Some(run) = runs.iter().find(|run| run.name == name) {
        let answer = run.once(count.min(ENTRIES), &mut Buffers::new());
        println!("{name}: {answer:?}");
    } else if let Some(check) = checks.iter().find(|check| check.name == name) {
        check.timed(count);
        println!("{name}: {count} calls, {} instructions each", check.instructions);
    } else if let Some(call) = traces::all().iter().find(|call| call.name == name) {
        println!("{name}: {}", call.once(count.max(1)));
    } else {
        let runs = runs.iter().map(|run| run.name);
        let checks = checks.iter().map(|check| check.name);
        let calls = traces::all().into_iter().map(|call| call.name);
        let names: Vec<&str> = runs.chain(checks).chain(calls).collect();
        return Err(format!("no workload {name}: there are {}", names.join(", ")));
    }
    Ok(())
}

fn main() {
    let words: Vec<String> = env::args().skip(1).collect();
    let words: Vec<&str> = words.iter().map(String::as_str).collect();
    let done = match words.as_slice() {
        [] => {
            times();
            Ok(())
        }
        ["--instructions"] => counted::print(),
        ["--growth"] => counted::print_growth(),
        ["--texts"] => texts::print(texts::LONG),
        ["--texts", bytes] => match bytes.parse() {
            Ok(bytes) => texts::print(bytes),
            Err(_) => Err(format!("{bytes} is no number")),
        },
        ["--each", name, from, count] => match (from.parse(), count.parse()) {
            (Ok(from), Ok(count)) => counted::print_each(name, from, count),
            _ => Err(format!("{from} {count}: no two numbers")),
        },
        ["--case", name] => one(name, ENTRIES),
        ["--case", name, count] => match count.parse() {
            Ok(count) => one(name, count),
            Err(_) => Err(format!("{count} is no number")),
        },
        _ => Err(
            "usage: bench [--instructions | --growth | --texts [BYTES] | --each NAME FROM COUNT | --case NAME [COUNT]]"
                .to_string(),
        ),
    };
    if let Err(why) = done {
        eprintln!("{why}");
        exit(2);
    }
}
