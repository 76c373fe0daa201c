//! `lanq batch`

use std::path::PathBuf;

use crate::batch::{default_out, Batch};
use crate::commands::{Command, CommandResult};
use crate::error::Failure;
use crate::options::{flag, valued, Arguments, Opt, INPUTS, RUN};
use crate::report::Detail;

pub const COMMAND: Command = Command {
    name: "batch",
    usage: "DIR [--jobs N] [options]",
    about: "runs every case of a directory, and prints how many came to which end and fault",
    more: "\
Writes one JSON object a case to DIR/results.jsonl, in the order of the names. Where it is broken
off it goes on when it is called again: each result is kept as soon as it is there, in a file beside
the results that ends in .partial, and is used again as long as the case's inputs are the same.",
    options: &[OPTIONS, INPUTS, RUN],
    run,
};

const OPTIONS: &[Opt] = &[
    valued("--jobs", "N", "on so many threads; else as many as there are cores"),
    valued("--out", "FILE", "the results' file, in place of DIR/results.jsonl"),
    valued("--part", "K/M", "only every Mth case, from the Kth on, to DIR/results.K-of-M.jsonl"),
    valued("--use", "FILE", "take results over from this file too; may be given again"),
    flag("--full", "with the trace and the final configuration of each run"),
];

fn run(arguments: &Arguments) -> Result<CommandResult, Failure> {
    let [directory] = arguments.exactly("a directory")?;
    let directory = PathBuf::from(directory);
    let cores = std::thread::available_parallelism().map_or(1, usize::from);
    let part = arguments.value("--part").map(part).transpose()?.unwrap_or((0, 1));
    let batch = Batch {
        jobs: arguments.number("--jobs", 1)?.unwrap_or(cores),
        out: arguments.value("--out").map_or_else(|| default_out(&directory, part), PathBuf::from),
        others: arguments.values("--use").map(PathBuf::from).collect(),
        detail: if arguments.has("--full") { Detail::Whole } else { Detail::Short },
        given: arguments.given(None)?,
        directory,
        part,
    };
    let summary = batch.run()?;
    Ok(CommandResult {
        out: summary.to_string().into_bytes(),
        notes: summary.unread.iter().map(|why| format!("{why}\n")).collect(),
        status: u8::from(!summary.all_ran()),
    })
}

/// `K/M`, K counted from 1.
fn part(text: &str) -> Result<(usize, usize), Failure> {
    let numbers = text.split_once('/').and_then(|(part, of)| Some((part.parse().ok()?, of.parse().ok()?)));
    match numbers {
        Some((part, of)) if (1..=of).contains(&part) => Ok((part - 1, of)),
        _ => Err(Failure::Call(format!("--part wants K/M with K from 1 to M, not {text}"))),
    }
}
