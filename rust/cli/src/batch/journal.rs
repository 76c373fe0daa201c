//! The files of a batch: results in the order of the names, and the journal of
//! those that came before the batch was whole.

use std::fs::{File, OpenOptions};
use std::io::{BufWriter, ErrorKind, Write};
use std::path::{Path, PathBuf};
use std::time::{Duration, Instant};

use crate::error::Failure;
use crate::json::Json;

/// After so long the journal is on the disk even if the power fails.
const SYNCED: Duration = Duration::from_secs(1);

fn failure(path: &Path, what: &str) -> impl Fn(std::io::Error) -> Failure {
    let message = format!("{}: {what}", path.display());
    move |error| Failure::Said(format!("{message}: {error}"))
}

/// Another file beside one.
fn beside(path: &Path, ending: &str) -> PathBuf {
    let mut name = path.as_os_str().to_owned();
    name.push(ending);
    PathBuf::from(name)
}

/// Results in the order in which they came.
#[derive(Debug)]
pub struct Journal {
    path: PathBuf,
    file: File,
    results: Vec<Json>,
    synced: Instant,
}

impl Journal {
    /// Opens the journal beside a results' file. A line that was broken off in
    /// the middle is cut away.
    pub fn open(out: &Path) -> Result<Journal, Failure> {
        let path = beside(out, ".partial");
        let opened = OpenOptions::new().create(true).append(true).open(&path);
        let file = opened.map_err(failure(&path, "cannot be written"))?;
        let bytes = std::fs::read(&path).map_err(failure(&path, "cannot be read"))?;
        let whole = bytes.iter().rposition(|byte| *byte == b'\n').map_or(0, |last| last + 1);
        file.set_len(whole as u64).map_err(failure(&path, "cannot be written"))?;
        let results = results_of(&String::from_utf8_lossy(&bytes[..whole]));
        Ok(Journal { path, file, results, synced: Instant::now() })
    }

    /// The results that were there when it was opened.
    pub fn results(&self) -> &[Json] {
        &self.results
    }

    /// Writes a result in one piece.
    pub fn add(&mut self, json: &Json) -> Result<(), Failure> {
        let write = |file: &mut File| file.write_all(format!("{json}\n").as_bytes());
        write(&mut self.file).map_err(failure(&self.path, "cannot be written"))?;
        if self.synced.elapsed() > SYNCED {
            self.file.sync_data().map_err(failure(&self.path, "cannot be written"))?;
            self.synced = Instant::now();
        }
        Ok(())
    }

    /// The batch is whole.
    pub fn remove(self) -> Result<(), Failure> {
        std::fs::remove_file(&self.path).map_err(failure(&self.path, "cannot be removed"))
    }
}

/// Results in the order of the names. The file takes its name when all are
/// there.
#[derive(Debug)]
pub struct Results {
    path: PathBuf,
    under_way: PathBuf,
    file: BufWriter<File>,
}

impl Results {
    pub fn create(path: &Path) -> Result<Results, Failure> {
        let under_way = beside(path, ".new");
        let file = File::create(&under_way).map_err(failure(&under_way, "cannot be written"))?;
        Ok(Results { path: path.to_path_buf(), under_way, file: BufWriter::new(file) })
    }

    pub fn add(&mut self, json: &Json) -> Result<(), Failure> {
        writeln!(self.file, "{json}").map_err(failure(&self.under_way, "cannot be written"))
    }

    pub fn finish(self) -> Result<(), Failure> {
        let written = self.file.into_inner().map_err(|error| error.into_error()).and_then(|file| file.sync_all());
        written.map_err(failure(&self.under_way, "cannot be written"))?;
        std::fs::rename(&self.under_way, &self.path).map_err(failure(&self.path, "cannot be written"))
    }
}

/// The results in a file; none where it may be missing and is.
pub fn read_results(path: &Path, may_be_missing: bool) -> Result<Vec<Json>, Failure> {
    match std::fs::read_to_string(path) {
        Ok(text) => Ok(results_of(&text)),
        Err(error) if may_be_missing && error.kind() == ErrorKind::NotFound => Ok(Vec::new()),
        Err(error) => Err(failure(path, "cannot be read")(error)),
    }
}

/// The lines that are results; others are passed over.
fn results_of(text: &str) -> Vec<Json> {
    text.lines().filter_map(Json::read).collect()
}
