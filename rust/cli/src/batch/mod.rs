//! Every case of a directory, on several threads.
//!
//! A result is written to the journal as soon as it is there, in whatever order
//! results come, and to the results' file in the order of the names. A batch
//! that is broken off leaves its journal, and the next one goes on from there.

mod journal;
mod summary;

use std::collections::{BTreeMap, HashMap};
use std::path::{Path, PathBuf};
use std::sync::atomic::{AtomicUsize, Ordering};
use std::sync::mpsc::{channel, Sender};

use crate::batch::journal::{read_results, Journal, Results};
use crate::error::Failure;
use crate::input::case::{is_case, CaseOptions};
use crate::json::Json;
use crate::progress::Progress;
use crate::report::{case_json, digest, file_json, Detail, FORMAT, VERSION};

pub use crate::batch::summary::Summary;

/// A batch as it is asked for.
#[derive(Clone, Debug)]
pub struct Batch {
    pub directory: PathBuf,
    pub jobs: usize,
    /// This part, counted from 0, of so many.
    pub part: (usize, usize),
    /// Where the results go.
    pub out: PathBuf,
    /// Results of other batches, to be taken over.
    pub others: Vec<PathBuf>,
    pub detail: Detail,
    /// What the options give for every case.
    pub given: CaseOptions,
}

/// A result, with the number of its case.
struct CaseResult {
    number: usize,
    json: Json,
    /// Whether it was there already.
    old: bool,
}

impl Batch {
    /// Runs what is not finished yet, and counts what all cases came to.
    pub fn run(&self) -> Result<Summary, Failure> {
        let names = self.names()?;
        let mut journal = Journal::open(&self.out)?;
        let old = self.finished(&journal)?;
        let mut ordered = Results::create(&self.out)?;
        let mut summary = Summary::default();
        let mut early: BTreeMap<usize, Json> = BTreeMap::new();
        let mut written = 0;
        let mut done = 0;
        let mut progress = Progress::new("cases", names.len());
        self.each(&names, &old, |found| {
            if !found.old {
                journal.add(&found.json)?;
            }
            early.insert(found.number, found.json);
            while let Some(json) = early.remove(&written) {
                summary.add(&json);
                ordered.add(&json)?;
                written += 1;
            }
            done += 1;
            progress.done(done);
            Ok(())
        })?;
        drop(progress);
        ordered.finish()?;
        journal.remove()?;
        Ok(summary)
    }

    /// The names of the cases of this part, in their order.
    fn names(&self) -> Result<Vec<String>, Failure> {
        let shown = self.directory.display().to_string();
        let unread = |error: std::io::Error| Failure::of(&shown, format!("cannot be read: {error}"));
        let mut names = Vec::new();
        for entry in std::fs::read_dir(&self.directory).map_err(unread)? {
            let entry = entry.map_err(unread)?;
            let name = entry.file_name().to_string_lossy().into_owned();
            if !name.starts_with('.') && is_case(&entry.path(), self.given.program.is_some()) {
                names.push(name);
            }
        }
        if names.is_empty() {
            return Err(Failure::of(&shown, "has no case"));
        }
        names.sort();
        let (part, of) = self.part;
        Ok(names.into_iter().skip(part).step_by(of).collect())
    }

    /// The results that are there already, by their cases' names.
    fn finished(&self, journal: &Journal) -> Result<HashMap<String, Vec<Json>>, Failure> {
        let mut files = vec![self.out.as_path()];
        files.extend(self.others.iter().map(PathBuf::as_path));
        let mut all: HashMap<String, Vec<Json>> = HashMap::new();
        for path in files {
            for json in read_results(path, path == self.out)? {
                keep(&mut all, json);
            }
        }
        journal.results().iter().for_each(|json| keep(&mut all, json.clone()));
        Ok(all)
    }

    /// Hands every case's result on as it comes.
    fn each(
        &self,
        names: &[String],
        old: &HashMap<String, Vec<Json>>,
        mut take: impl FnMut(CaseResult) -> Result<(), Failure>,
    ) -> Result<(), Failure> {
        let next = AtomicUsize::new(0);
        let (sender, receiver) = channel();
        std::thread::scope(|scope| {
            for _ in 0..self.jobs {
                let sender = sender.clone();
                scope.spawn(|| self.work(names, old, &next, sender));
            }
            drop(sender);
            let taken = receiver.iter().try_for_each(&mut take);
            // Where a result cannot be kept, the others need not be worked out.
            next.store(names.len(), Ordering::Relaxed);
            taken
        })
    }

    /// Takes one case after the other until there is none left.
    fn work(&self, names: &[String], old: &HashMap<String, Vec<Json>>, next: &AtomicUsize, sender: Sender<CaseResult>) {
        loop {
            let number = next.fetch_add(1, Ordering::Relaxed);
            let Some(name) = names.get(number) else { return };
            let (json, old) = self.result(name, old.get(name).map(Vec::as_slice).unwrap_or_default());
            if sender.send(CaseResult { number, json, old }).is_err() {
                return;
            }
        }
    }

    /// A case's result, and whether it was there already.
    fn result(&self, name: &str, old: &[Json]) -> (Json, bool) {
        let given = CaseOptions { path: Some(self.directory.join(name)), silent: true, ..self.given.clone() };
        let case = match given.case() {
            Ok(case) => case,
            Err(Failure::Refused(refused)) => return (file_json(name, given.machine, &refused), false),
            Err(Failure::Call(why) | Failure::Said(why)) => return (unread_json(name, &why), false),
        };
        if let Some(json) = old.iter().find(|json| self.is_of(json, &digest(&case, given.room))) {
            return (json.clone(), true);
        }
        let json = |result| case_json(name, &case, given.machine, given.room, result, self.detail);
        match given.run(&case) {
            Ok(run) => (json(Ok(&run)), false),
            Err(Failure::Refused(refused)) => (json(Err(&refused)), false),
            Err(Failure::Call(why) | Failure::Said(why)) => (unread_json(name, &why), false),
        }
    }

    /// Whether an old result is of these inputs, by this machine and version, and
    /// says enough.
    fn is_of(&self, json: &Json, digest: &str) -> bool {
        let text = |key| json.get(key).and_then(Json::as_text);
        let format = json.get("format").and_then(Json::as_number);
        let whole = self.detail == Detail::Short || json.get("end").is_none() || json.get("trace").is_some();
        let same = [("inputs", digest), ("machine", self.given.machine.name()), ("version", VERSION)];
        whole && format == Some(i64::from(FORMAT)) && same.iter().all(|(key, value)| text(key) == Some(*value))
    }
}

fn keep(all: &mut HashMap<String, Vec<Json>>, json: Json) {
    if let Some(name) = json.get("case").and_then(Json::as_text) {
        all.entry(name.to_string()).or_default().push(json);
    }
}

/// The object of a case that could not be read.
fn unread_json(name: &str, why: &str) -> Json {
    Json::object([("case", Json::text(name)), ("format", Json::number(FORMAT)), ("error", Json::text(why))])
}

/// Where the results of a batch go unless it is said: into the directory.
pub fn default_out(directory: &Path, (part, of): (usize, usize)) -> PathBuf {
    match of {
        1 => directory.join("results.jsonl"),
        _ => directory.join(format!("results.{}-of-{of}.jsonl", part + 1)),
    }
}
