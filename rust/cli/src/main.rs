//! `lanq`: checks, runs and explains programs of the LanQ process machine.

#![forbid(unsafe_code)]

use std::io::{ErrorKind, Write};
use std::process::ExitCode;

use cli::commands::call;

fn main() -> ExitCode {
    let words: Vec<String> = std::env::args_os().skip(1).map(|word| word.to_string_lossy().into_owned()).collect();
    // The whole answer is there before the first byte of it is written.
    let done = call(&words);
    let mut out = std::io::stdout();
    let written = out.write_all(&done.out).and_then(|()| out.flush());
    eprint!("{}", done.notes);
    match written {
        Ok(()) => ExitCode::from(done.status),
        // Whoever reads has seen enough.
        Err(error) if error.kind() == ErrorKind::BrokenPipe => ExitCode::from(done.status),
        Err(error) => {
            eprintln!("lanq: standard output: {error}");
            ExitCode::from(1)
        }
    }
}
