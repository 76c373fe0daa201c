//! Helpers of the tests.
#![allow(dead_code)]

use std::fs;
use std::path::{Path, PathBuf};
use std::process::{Command, Output};

use cli::asm::assemble::{assemble, Assembly};
use data::file::file;
use data::program::table;

/// An example: its name, its text and what is printed for it.
pub struct Example {
    pub name: String,
    pub path: PathBuf,
    pub text: String,
    pub expected: String,
}

/// A file of the repository.
pub fn repository(path: &str) -> PathBuf {
    let here = PathBuf::from(env!("CARGO_MANIFEST_DIR"));
    here.join("../..").join(path)
}

/// All of them, so that a new one is tested without being named here.
pub fn examples() -> Vec<Example> {
    let entries = fs::read_dir(repository("examples")).expect("the examples are there");
    let paths = entries.map(|entry| entry.expect("an entry can be read").path());
    let texts = paths.filter(|path| path.extension().is_some_and(|ending| ending == "lqa"));
    let mut examples: Vec<Example> = texts.map(|path| read(&path)).collect();
    examples.sort_by(|one, other| one.name.cmp(&other.name));
    assert!(examples.len() >= 6);
    examples
}

fn read(path: &Path) -> Example {
    let read = |path: &Path| {
        let text = fs::read_to_string(path);
        text.unwrap_or_else(|error| panic!("{}: {error}", path.display()))
    };
    let name = path.file_stem().expect("an example has a name");
    Example {
        name: name.to_string_lossy().into_owned(),
        path: path.to_path_buf(),
        text: read(path),
        expected: read(&path.with_extension("expected")),
    }
}

/// One example by its name.
pub fn example(name: &str) -> Example {
    let mut all = examples().into_iter();
    let found = all.find(|example| example.name == name);
    found.expect("the example is there")
}

/// Assembles a text that has no error.
pub fn assembled(text: &str) -> Assembly {
    assemble(text).unwrap_or_else(|error| panic!("{error}\n{text}"))
}

/// The input file of a text.
pub fn bytes(text: &str) -> Vec<u8> {
    let Assembly { code, schedule, outcomes } = assembled(text);
    file(&table(&code.methods), &schedule.unwrap_or_default(), &outcomes.unwrap_or_default())
}

/// A text of main alone, with this body.
pub fn main_of(body: &str) -> String {
    format!("method void main()\n{body}\n")
}

/// A fresh folder for one test, in the build's own folder for such.
pub fn folder(name: &str) -> PathBuf {
    let path = Path::new(env!("CARGO_TARGET_TMPDIR")).join(name);
    let _ = fs::remove_dir_all(&path);
    fs::create_dir_all(&path).expect("the folder can be made");
    path
}

/// A file in a folder.
pub fn write(folder: &Path, name: &str, content: impl AsRef<[u8]>) -> PathBuf {
    let path = folder.join(name);
    fs::write(&path, content).expect("the file can be written");
    path
}

/// What a call of `lanq` left.
#[derive(Debug)]
pub struct CommandOutput {
    pub status: Option<i32>,
    pub out: String,
    pub notes: String,
}

/// Calls `lanq` in a folder.
pub fn lanq_in(folder: &Path, words: &[&str]) -> CommandOutput {
    let Output { status, stdout, stderr } =
        Command::new(env!("CARGO_BIN_EXE_lanq")).args(words).current_dir(folder).output().expect("lanq starts");
    let text = |bytes: Vec<u8>| String::from_utf8_lossy(&bytes).into_owned();
    CommandOutput { status: status.code(), out: text(stdout), notes: text(stderr) }
}

/// Calls `lanq` where the examples are.
pub fn lanq(words: &[&str]) -> CommandOutput {
    lanq_in(&repository("examples"), words)
}

impl CommandOutput {
    /// What was printed by a call that went well and had nothing to note.
    pub fn quiet(self) -> String {
        assert_eq!((self.status, self.notes.as_str()), (Some(0), ""), "{}", self.out);
        self.out
    }

    /// What was noted by a call that failed with this status and printed nothing.
    pub fn failed(self, status: i32) -> String {
        assert_eq!((self.status, self.out.as_str()), (Some(status), ""), "{}", self.notes);
        self.notes
    }
}
