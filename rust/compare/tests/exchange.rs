//! Paper 12, on runs of the library alone: "two neighbouring entries of different
//! processes may change places with an equal final configuration, provided that
//! both move in the order given, neither is at NEWQ, NEWC, MEAS, a set
//! measurement, FORK, SEND or RECV, and neither stops or finishes its process",
//! and so "for any number of such exchanges".

use std::collections::BTreeMap;

use data::program::op::*;
use data::program::{op, table, Method};
use generate::{case, Case, Random};
use lanq::{decode, lines, run_in, Answer, Configuration, Line, LINE_WORDS, WORK_WORDS};

/// How many generated cases are exchanged in, how many of busy stations, and how
/// many places are tried in each.
const GENERATED: u64 = 1_500;
const BUSY: u64 = 300;
const TRIES: usize = 60;

/// The cases, each with numbers that no generated case was made of.
fn cases() -> impl Iterator<Item = (Case, Random)> {
    let random = |seed: u64| Random::new(seed ^ 0x65_78_63_68);
    let generated = (0..GENERATED).map(move |seed| (case(seed), random(seed)));
    let busy = (0..BUSY).map(move |seed| {
        let mut random = random(!seed);
        (busy(&mut random), random)
    });
    generated.chain(busy)
}

/// Slots of a busy station.
const A: u16 = 0;
const B: u16 = 1;
const N: u16 = 2;
const FLAG: u16 = 3;
const LINE: u16 = 4;
const SIDE: u16 = 5;

/// Stations that work for ever, each on two qubits of its own, named in no order:
/// in the generated cases few neighbours are gates.
fn busy(random: &mut Random) -> Case {
    let stations = random.between(1, 3);
    let forks = vec![(FORK, 1); stations];
    let same = Method { return_type: 1, parameters: 1, slots: vec![1], code: vec![(GET, 0), (RET, 0)] };
    let methods = [station(&forks, random), station(&[], random), same];
    let schedule = (0..300).map(|_| random.below(stations + 1) as u8).collect();
    let outcomes = (0..300).map(|_| random.below(3) as u8).collect();
    Case { program: table(&methods), schedule, outcomes, trace_len: 6 * 900 + random.below(6), work_len: WORK_WORDS }
}

/// Forks, makes what it needs, and then does the same again and again.
fn station(forks: &[(u16, u16)], random: &mut Random) -> Method {
    let make = [(NEWQ, 0), (PUT, A), (DROP, 0), (NEWQ, 0), (PUT, B), (DROP, 0), (NEWC, 1), (PUT, LINE), (DROP, 0)];
    let mut code = [forks, &make, &[(INT, 0), (PUT, N), (DROP, 0)]].concat();
    let again = code.len() as u16;
    for _ in 0..random.between(8, 20) {
        let next = code.len() as u16;
        code.extend(match random.below(16) {
            0..=5 => vec![(GET, random.pick(&[A, B])), (GATE, random.word_between(1, 5))],
            6 | 7 => vec![(GET, A), (GET, B), (GATE, random.word_between(6, 8))],
            8 => vec![(GET, N), (INT, random.word_between(0, 9)), (random.pick(&[ADD, SUB]), 0), (PUT, N), (DROP, 0)],
            9 => vec![(GET, N), (INT, 4), (random.pick(&[EQ, LESS]), 0), (NOT, 0), (PUT, FLAG), (JFALSE, next + 6)],
            10 => vec![(BOOL, 1), (PUT, FLAG), (DROP, 0), (CLEAR, FLAG)],
            11 => vec![(GET, LINE), (END, random.word_between(0, 1)), (PUT, SIDE), (DROP, 0)],
            12 => vec![(GET, N), (CALL, 2), (DROP, 0)],
            _ => vec![(GET, A), (MEAS, 0), (DROP, 0)],
        });
    }
    code.push((JUMP, again));
    Method { return_type: 0, parameters: 0, slots: vec![3, 3, 1, 2, 17, 33], code }
}

/// A run with all that it leaves in its buffers, which held other words before.
#[derive(Clone, Debug, PartialEq, Eq)]
struct LibraryRun {
    answer: Answer,
    trace: Vec<u16>,
    work: Vec<u32>,
}

impl LibraryRun {
    fn lines(&self) -> &[Line] {
        &lines(&self.trace)[..self.answer.lines]
    }
}

/// The library's run of a case on a schedule, where the case is not refused.
fn ran(case: &Case, schedule: &[u8]) -> Option<LibraryRun> {
    let mut trace = vec![9; case.trace_len];
    let mut work = vec![9; case.work_len];
    let answer = run_in(&case.program, schedule, &case.outcomes, &mut trace, &mut work).ok()?;
    Some(LibraryRun { answer, trace, work })
}

/// The configuration before an entry: the run on the entries before it leaves it.
fn before(case: &Case, schedule: &[u8], entry: usize) -> Configuration {
    let ran = ran(case, &schedule[..entry]).expect("the whole schedule is accepted");
    decode(&ran.work).expect("a configuration")
}

/// What an entry did.
#[derive(Clone, Copy, Debug, PartialEq, Eq, PartialOrd, Ord)]
struct Move {
    op: u16,
    /// The process runs on.
    goes_on: bool,
}

impl Move {
    /// Whether the paper lets such an entry change places.
    fn may_change_places(self) -> bool {
        self.goes_on && !matches!(self.op, NEWQ | NEWC | MEAS | FORK | SEND | RECV)
    }

    fn kind(self) -> &'static str {
        match self.op {
            GATE => "gate",
            _ => "silent",
        }
    }
}

/// The op at which an entry's process stood, between these configurations. At
/// SEND and RECV it may have waited; at every other op one that runs moves.
fn moved(case: &Case, process: u8, before: &Configuration, after: &Configuration) -> Option<Move> {
    let number = usize::from(process);
    let runs = before.processes.get(number).filter(|process| process.runs())?;
    let methods = usize::from(case.program[0]);
    let op = case.program[2 + 20 * methods + 2 * runs.top()?.place];
    let moves = !matches!(op, SEND | RECV) || before != after;
    moves.then(|| Move { op, goes_on: after.processes[number].runs() })
}

/// What two neighbouring entries of different processes did, if both were taken
/// and both moved.
fn neighbours(case: &Case, schedule: &[u8], ran: &LibraryRun, first: usize) -> Option<[Move; 2]> {
    if first + 1 >= ran.answer.entries || schedule[first] == schedule[first + 1] {
        return None;
    }
    let stands = [first, first + 1, first + 2].map(|entry| before(case, schedule, entry));
    let one = moved(case, schedule[first], &stands[0], &stands[1])?;
    let other = moved(case, schedule[first + 1], &stands[1], &stands[2])?;
    Some([one, other])
}

/// The schedule with these two entries exchanged.
fn exchanged(schedule: &[u8], first: usize) -> Vec<u8> {
    let mut schedule = schedule.to_vec();
    schedule.swap(first, first + 1);
    schedule
}

/// The lines with those of the two entries exchanged.
fn lines_exchanged(lines: &[Line], first: usize) -> Vec<Line> {
    let of = |entry: usize| lines.iter().filter(move |line| usize::from(line.entry) == entry);
    let number = |entry: usize| u16::try_from(entry).expect("an entry's number");
    let earlier = lines.iter().filter(|line| usize::from(line.entry) < first).copied();
    let second = of(first + 1).map(|line| Line { entry: number(first), ..*line });
    let one = of(first).map(|line| Line { entry: number(first + 1), ..*line });
    let later = lines.iter().filter(|line| usize::from(line.entry) > first + 1).copied();
    earlier.chain(second).chain(one).chain(later).collect()
}

/// The run after an exchange is the run before it, with the lines of the two
/// entries exchanged.
fn is_the_same_but_for_two_entries(before: &LibraryRun, after: &LibraryRun, first: usize) {
    assert_eq!(after.answer, before.answer);
    assert!(after.work == before.work, "the work stores differ");
    assert_eq!(after.lines(), lines_exchanged(before.lines(), first));
    let written = LINE_WORDS * before.answer.lines;
    assert_eq!(after.trace[written..], before.trace[written..]);
}

/// Exchanges random neighbours of a case, each in the schedule that the exchange
/// before has left. Answers what was exchanged.
fn exchange_many(case: &Case, random: &mut Random) -> Vec<[Move; 2]> {
    let mut done = Vec::new();
    let Some(start) = ran(case, &case.schedule) else {
        return done;
    };
    let (mut schedule, mut last) = (case.schedule.clone(), start.clone());
    for _ in 0..TRIES.min(start.answer.entries) {
        let first = random.below(start.answer.entries);
        let Some(both) = neighbours(case, &schedule, &last, first) else { continue };
        if !both.iter().all(|one| one.may_change_places()) {
            continue;
        }
        schedule = exchanged(&schedule, first);
        let now = ran(case, &schedule).expect("an exchange refuses nothing");
        is_the_same_but_for_two_entries(&last, &now, first);
        last = now;
        done.push(both);
    }
    // All of them together.
    assert_eq!(last.answer, start.answer);
    assert!(last.work == start.work, "the work stores differ after {} exchanges", done.len());
    done
}

#[test]
fn exchanged_entries_leave_the_same() {
    let mut kinds: BTreeMap<[&str; 2], u64> = BTreeMap::new();
    let mut ops: BTreeMap<u16, u64> = BTreeMap::new();
    let (mut most, mut all) = (0, 0);
    for (case, mut random) in cases() {
        let done = exchange_many(&case, &mut random);
        for both in &done {
            *kinds.entry(both.map(Move::kind)).or_default() += 1;
            both.iter().for_each(|one| *ops.entry(one.op).or_default() += 1);
        }
        all += done.len();
        most = most.max(done.len());
    }
    println!("{all} exchanges, at most {most} one after the other: {kinds:?}");
    for kind in [["silent", "silent"], ["silent", "gate"], ["gate", "silent"], ["gate", "gate"]] {
        assert!(kinds.get(&kind).is_some_and(|count| *count > 100), "{kind:?}: {kinds:?}");
    }
    assert!(most > 20, "at most {most} exchanges one after the other");
    // Every op that the paper leaves took part.
    for number in (1..=23).filter(|op| Move { op: *op, goes_on: true }.may_change_places()) {
        let name = op::name(number).expect("a listed op");
        let count = ops.get(&number).copied().unwrap_or(0);
        println!("{count:8} {name}");
        assert!(count > 0, "no entry at {name} was exchanged");
    }
}

/// The condition is needed: entries that it keeps out leave something else when
/// they are exchanged, and the comparison sees it.
#[test]
fn what_the_condition_keeps_out() {
    let mut differ: BTreeMap<&str, u64> = BTreeMap::new();
    for (case, mut random) in cases() {
        let Some(start) = ran(&case, &case.schedule) else { continue };
        for _ in 0..TRIES.min(start.answer.entries) {
            let first = random.below(start.answer.entries);
            let Some([one, other]) = neighbours(&case, &case.schedule, &start, first) else { continue };
            let Some(now) = ran(&case, &exchanged(&case.schedule, first)) else { continue };
            let why = match [one, other].map(|moved| (moved.op, moved.goes_on)) {
                [(NEWQ, true), (NEWQ, true)] => "two qubits made",
                [(NEWC, true), (NEWC, true)] => "two channels made",
                [(MEAS, true), (MEAS, true)] => "two measurements",
                [(FORK, true), (FORK, true)] => "two forks",
                [(SEND | RECV, true), _] | [_, (SEND | RECV, true)] => "a meeting",
                [(_, false), _] | [_, (_, false)] => "one stops or finishes",
                _ => continue,
            };
            let lines = lines_exchanged(start.lines(), first);
            if (now.answer, &now.work, now.lines()) != (start.answer, &start.work, &lines) {
                *differ.entry(why).or_default() += 1;
            }
        }
    }
    println!("{differ:?}");
    for why in
        ["two qubits made", "two channels made", "two measurements", "two forks", "a meeting", "one stops or finishes"]
    {
        assert!(differ.contains_key(why), "{why}: {differ:?}");
    }
}
