//! The printing program against the model's text, on files: the program of the
//! archive's build is run with each file as its standard input.

use std::io::Write;
use std::path::PathBuf;
use std::process::{Command, Stdio};

use generate::{case, file};

/// Where `rt` puts the program.
fn program() -> PathBuf {
    PathBuf::from(env!("CARGO_MANIFEST_DIR")).join("../../crates/print_run/out/print_run")
}

/// What the program prints for a file.
fn printed(file: &[u8]) -> String {
    let mut child = Command::new(program())
        .stdin(Stdio::piped())
        .stdout(Stdio::piped())
        .spawn()
        .expect("crates/print_run/out/print_run is there once the crates are proved");
    let mut input = child.stdin.take().unwrap();
    let bytes = file.to_vec();
    // A file that is too long is not read to its end.
    let writer = std::thread::spawn(move || drop(input.write_all(&bytes)));
    let output = child.wait_with_output().unwrap();
    writer.join().unwrap();
    assert!(output.status.success(), "{:?}", output.status);
    String::from_utf8(output.stdout).unwrap()
}

/// Whether the text has a measurement without a click.
fn has_no_click(text: &str) -> bool {
    text.lines().any(|line| line.split(' ').nth(2) == Some("4") && line.ends_with(" 2 -"))
}

/// The refusal's number or, for a run, nothing; and the kinds of its lines.
fn met(text: &str) -> (Option<u32>, Vec<u32>) {
    let refused = text.strip_prefix("refused ").map(|rest| rest.split(' ').next().unwrap().parse().unwrap());
    let lines = text.lines().filter(|line| !line.starts_with("end") && !line.starts_with("refused"));
    (refused, lines.map(|line| line.split(' ').nth(2).unwrap().parse().unwrap()).collect())
}

#[test]
fn prints_what_the_model_prints() {
    let mut refusals = [0; 10];
    let mut kinds = [0; 11];
    let mut no_clicks = 0;
    let mut compare = |bytes: &[u8]| {
        let text = model::print::print(bytes);
        assert_eq!(printed(bytes), text, "{bytes:?}");
        let (refused, lines) = met(&text);
        refusals[refused.unwrap_or(0) as usize] += 1;
        lines.iter().for_each(|kind| kinds[*kind as usize] += 1);
        no_clicks += usize::from(has_no_click(&text));
    };
    for seed in 0..600 {
        compare(&file(seed));
        let case = case(seed);
        compare(&data::file::file(&case.program, &case.schedule, &case.outcomes));
    }
    // The longest file there may be, and one byte more.
    let longest = data::file::file(&case(0).program, &[], &[]).len();
    compare(&data::file::file(&case(0).program, &vec![0; 65_536 - longest], &[]));
    compare(&data::file::file(&case(0).program, &vec![0; 65_537 - longest], &[]));
    // 7 and 8 cannot show here: a file is too short for 7, and the program has its own store.
    for number in [0, 1, 2, 3, 4, 5, 6, 9] {
        assert!(refusals[number] > 0, "no file was refused by {number}");
    }
    for (kind, count) in kinds.iter().enumerate().skip(1) {
        assert!(*count > 0, "no file printed a line of kind {kind}");
    }
    assert!(no_clicks > 10, "{no_clicks} files printed a measurement without a click");
}
