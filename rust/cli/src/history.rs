//! A run entry by entry. The library runs a schedule from its start, and the
//! run on the first k entries stands where the whole run stood after k of them;
//! so the steps are the runs on one entry more each.

use data::{Configuration, Line, Run};

use crate::holders::Holders;
use crate::input::case::{Case, CaseOptions};
use crate::machine::Runner;
use crate::progress::Progress;

/// One entry that was used.
#[derive(Debug)]
pub struct Step<'s> {
    pub entry: usize,
    /// The process that the entry names.
    pub process: u8,
    pub before: &'s Configuration,
    pub after: &'s Configuration,
    /// Who held what before it.
    pub holders: &'s Holders,
    /// The lines that the entry wrote.
    pub lines: &'s [Line],
}

/// Visits the entries that a run has used, in their order.
pub fn each_step(given: &CaseOptions, case: &Case, run: &Run, mut visit: impl FnMut(&Step)) {
    let mut runner = given.runner(case);
    let mut before = configuration(case, &mut runner, 0);
    let mut lines = run.lines.as_slice();
    let mut holders = Holders::default();
    let mut progress = if given.silent { Progress::silent() } else { Progress::new("entries", run.entries) };
    for entry in 0..run.entries {
        let after = configuration(case, &mut runner, entry + 1);
        let written = lines.iter().take_while(|line| usize::from(line.entry) == entry).count();
        let (these, rest) = lines.split_at(written);
        let process = case.schedule[entry];
        visit(&Step { entry, process, before: &before, after: &after, holders: &holders, lines: these });
        these.iter().for_each(|line| holders.read(line));
        lines = rest;
        before = after;
        progress.done(entry + 1);
    }
}

fn configuration(case: &Case, runner: &mut Runner, entries: usize) -> Configuration {
    let run = runner.run(&case.program, &case.schedule[..entries], &case.outcomes);
    run.expect("the whole schedule was accepted").configuration
}
