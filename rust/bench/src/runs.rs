//! Runs of many entries.

use std::hint::black_box;
use std::time::Instant;

use data::program::{table, Method};
use lanq::{Answer, End, Refusal};
use model::machine::{EntryResult, Machine};

use crate::programs;

/// Entries of a workload's schedule.
pub const ENTRIES: usize = 60_000;

/// A program with its schedule. No run of it ends before the schedule does.
pub struct Run {
    pub name: &'static str,
    program: Vec<u16>,
    schedule: Vec<u8>,
    outcomes: Vec<u8>,
}

/// The schedule is `first`, then `turn` again and again.
fn turns(name: &'static str, methods: Vec<Method>, first: &[u8], turn: &[u8]) -> Run {
    let schedule = first.iter().chain(turn.iter().cycle()).copied();
    Run {
        name,
        program: table(&methods),
        schedule: schedule.take(ENTRIES).collect(),
        outcomes: (0..ENTRIES).map(|i| (i % 2) as u8).collect(),
    }
}

/// The schedule names `processes` numbers in turn.
fn named(name: &'static str, methods: Vec<Method>, processes: u8) -> Run {
    turns(name, methods, &[], &(0..processes).collect::<Vec<u8>>())
}

/// Ping-pong without an idle entry: a process is named only where it can move.
fn no_waiting() -> Run {
    let first = [0, 0, 0, 0, 0, 0, 0, 0, 1];
    let turn = [0, 0, 0, 1, 1, 1, 1, 0, 0, 0, 0, 1, 1];
    turns("no-waiting", programs::ping_pong(), &first, &turn)
}

/// The same with a qubit.
const HAND_OVER: [u8; 14] = [0, 0, 0, 1, 1, 1, 1, 0, 0, 0, 0, 0, 1, 1];

fn hand_over() -> Run {
    let first = [0, 0, 0, 0, 0, 0, 0, 0, 0, 0, 0, 1];
    turns("hand-over", programs::hand_over(), &first, &HAND_OVER)
}

/// The same from the top frame of so many: three entries more for each.
fn giving(name: &'static str, frames: u16) -> Run {
    let mut first = vec![0; 11];
    first.push(1);
    first.extend(vec![0; 3 * (frames as usize - 1)]);
    let methods = if frames == 1 { programs::hand_over() } else { programs::hand_over_from(frames) };
    turns(name, methods, &first, &HAND_OVER)
}

pub fn all() -> Vec<Run> {
    vec![
        named("arithmetic", programs::arithmetic(), 1),
        named("round-robin", programs::processes(8), 8),
        named("ping-pong", programs::ping_pong(), 2),
        no_waiting(),
        hand_over(),
        named("relay", programs::relay(), 4),
        named("calls", programs::calls(), 1),
        named("waiting", programs::waiting(), 8),
        named("not-made", programs::arithmetic(), 8),
        named("quantum", programs::quantum(), 1),
    ]
}

/// What the cost of an entry grows with: processes, instructions of the table, frames, and the giver's frames. Four sizes
/// of each.
pub fn growing() -> Vec<Run> {
    vec![
        named("processes-1", programs::processes(1), 1),
        named("processes-2", programs::processes(2), 2),
        named("processes-4", programs::processes(4), 4),
        named("processes-8", programs::processes(8), 8),
        named("table-516", programs::longer(516), 1),
        named("table-1032", programs::longer(1032), 1),
        named("table-2064", programs::longer(2064), 1),
        named("table-4092", programs::longer(4092), 1),
        named("frames-2", programs::calls_to(2), 1),
        named("frames-4", programs::calls_to(4), 1),
        named("frames-6", programs::calls_to(6), 1),
        named("frames-8", programs::calls_to(8), 1),
        giving("giving-1", 1),
        giving("giving-2", 2),
        giving("giving-4", 4),
        giving("giving-8", 8),
    ]
}

/// Words of the lent trace: no entry of these workloads writes more than three
/// lines.
const TRACE: usize = 3 * 6 * ENTRIES;

/// The buffers that a run is lent, made once.
pub struct Buffers {
    trace: Vec<u16>,
    work: Vec<u32>,
}

impl Buffers {
    pub fn new() -> Buffers {
        Buffers { trace: vec![0; TRACE], work: vec![0; lanq::WORK_WORDS] }
    }
}

impl Run {
    /// The process that an entry names.
    pub fn named(&self, entry: usize) -> u8 {
        self.schedule[entry]
    }

    /// Runs the schedule's first entries with the library.
    pub fn once(&self, entries: usize, lent: &mut Buffers) -> Result<Answer, Refusal> {
        let schedule = black_box(&self.schedule[..entries]);
        lanq::run_in(&self.program, schedule, &self.outcomes, &mut lent.trace, &mut lent.work)
    }

    /// Nanoseconds per entry, the best of so many runs.
    pub fn timed(&self, runs: usize, lent: &mut Buffers) -> f64 {
        best(runs, || match self.once(ENTRIES, lent) {
            Ok(Answer { end: End::ScheduleUsed, entries, .. }) => entries,
            other => panic!("{}: {other:?}", self.name),
        })
    }

    /// How many of a hundred entries are idle.
    pub fn idle(&self) -> f64 {
        let program = model::check(&self.program, &[], &[], lanq::WORK_WORDS);
        let program = program.expect("a workload passes the questions");
        let mut machine = Machine::new(&program, &self.outcomes, TRACE);
        let did = self.schedule.iter().map(|byte| machine.entry(*byte));
        let idle = did.filter(|did| *did == Ok(EntryResult::Idle)).count();
        100.0 * idle as f64 / ENTRIES as f64
    }
}

fn best(runs: usize, mut run: impl FnMut() -> usize) -> f64 {
    let timed = (0..runs).map(|_| {
        let start = Instant::now();
        assert_eq!(run(), ENTRIES, "a run ended early");
        start.elapsed().as_nanos() as f64 / ENTRIES as f64
    });
    timed.fold(f64::INFINITY, f64::min)
}
