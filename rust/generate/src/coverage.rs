//! What the cases have brought about, and what is missing.

use std::collections::BTreeMap;

use data::{End, Fault, Holders, Line, Process, Refusal, Run, Side, State, Thing, Type, Value};
use model::check::{check, read_table};
use model::gone::gone;
use model::machine::{EntryResult, Machine};
use model::owner::{deciding_line, holder, ownership_since, reach, stored_holders};
use model::step::{MOST_CHANNELS, MOST_FRAMES, MOST_PROCESSES, MOST_QUBITS};
use model::table::Op;
use model::typing::{first_fault, TypeFaultKind, MOST_PENDING};

use crate::mark::{all_marks, Mark, StoredHolder};
use crate::Case;

/// Counts of marks.
#[derive(Clone, Debug, Default)]
pub struct Coverage {
    counts: BTreeMap<Mark, u64>,
}

impl Coverage {
    pub fn new() -> Coverage {
        Coverage::default()
    }

    pub fn add(&mut self, mark: Mark) {
        *self.counts.entry(mark).or_insert(0) += 1;
    }

    /// How often a mark was seen.
    pub fn count(&self, mark: Mark) -> u64 {
        self.counts.get(&mark).copied().unwrap_or(0)
    }

    /// All counts.
    pub fn counts(&self) -> &BTreeMap<Mark, u64> {
        &self.counts
    }

    /// Every mark that can be seen and was not.
    pub fn missing(&self) -> Vec<Mark> {
        let all = all_marks().into_iter();
        all.filter(|mark| self.count(*mark) == 0).collect()
    }

    /// Marks of a refusal.
    fn refused(&mut self, case: &Case, refusal: Refusal) {
        self.add(Mark::Refusal(refusal.number()));
        if refusal.place > 0 {
            self.add(Mark::RefusalFurtherOn(refusal.number()));
        }
        if refusal.number() == 5 {
            if let Some((why, op)) = question_5(&case.program) {
                self.add(Mark::Question5(why));
                if why == TypeFaultKind::PendingAfter {
                    self.add(Mark::PendingAfter(op.number()));
                }
            }
        }
    }

    fn trace_length(&mut self, words: usize) {
        self.add(match (words, words % 6) {
            (0, _) => Mark::NoTrace,
            (_, 0) => Mark::WholeLines,
            _ => Mark::PartOfALine,
        });
    }

    /// Marks of an entry that was taken.
    fn entry(&mut self, before: &Machine, byte: u8, did: EntryResult, after: &Machine) {
        if before.lines.len() == before.room {
            self.add(Mark::FullTraceGoesOn);
        }
        let process = usize::from(byte);
        match did {
            EntryResult::Idle => self.idle(before, process),
            EntryResult::Stopped(fault) => self.fault(before, process, fault),
            EntryResult::Stepped => self.executed(before, process),
            EntryResult::Met(partner) => {
                self.executed(before, process);
                self.executed(before, partner);
            }
        }
        let new_lines = &after.lines[before.lines.len()..];
        self.lines(new_lines, before, process);
        self.emptied(before, after, new_lines);
        self.reached_limits(after);
    }

    fn fault(&mut self, before: &Machine, process: usize, fault: Fault) {
        let Some(op) = before.op_of(process) else {
            return;
        };
        let op = op.number();
        self.add(Mark::Fault { fault: fault.number(), op });
        // The own end, the opposite one's holder, and whether that has gone.
        let Some((end, holder)) = opposite_holder(before, process) else {
            return;
        };
        let (channel, side) = end;
        let why = gone(&before.config, &before.lines, process, channel, side);
        match (fault, why) {
            (Fault::Gone, Some(why)) => self.add(Mark::Gone { why, op }),
            (Fault::Empty, Some(_)) => self.add(Mark::EmptyBeforeGone(op)),
            _ => (),
        }
        let stopped_so = before.config.processes[holder].state == State::Stopped(Fault::Gone);
        if fault == Fault::Gone && stopped_so {
            self.add(Mark::GoneByGone);
        }
    }

    fn idle(&mut self, before: &Machine, process: usize) {
        self.add(Mark::Idle(before.readiness(process)));
        if process > 7 {
            self.add(Mark::IdleBeyond);
        }
        let Some(op) = before.op_of(process) else {
            return;
        };
        self.add(Mark::WaitsAt(op.number()));
        if let Some(((channel, side), holder)) = opposite_holder(before, process) {
            let opposite = Thing::End(channel, side.other());
            if !reach(&before.config.processes[holder]).contains(&opposite) {
                self.add(Mark::HeldOutOfReach(op.number()));
            }
        }
        for other in &before.config.processes {
            if let Some(mark) = not_ready(before, &before.config.processes[process], other) {
                self.add(mark);
            }
        }
    }

    fn executed(&mut self, before: &Machine, process: usize) {
        let Some(op) = before.op_of(process) else {
            return;
        };
        self.add(Mark::Op(op.number()));
        let running = &before.config.processes[process];
        match op {
            Op::Gate(gate) => self.add(Mark::Gate(gate.number())),
            Op::NewChannel(carried) => self.add(Mark::NewChannel(carried.number())),
            Op::End(side) => self.add(Mark::EndSide(side.number())),
            Op::JumpFalse(_) => {
                let top = running.top().and_then(|frame| frame.pending.last());
                self.add(Mark::JumpOnFalse(top == Some(&Value::Bool(false))));
            }
            Op::Return => self.returned(before, running),
            _ => {}
        }
    }

    fn returned(&mut self, before: &Machine, running: &Process) {
        if let Some(frame) = running.top() {
            let row = &before.program.methods[frame.method].row;
            let value = row.return_type != Type::None;
            let root = running.frames.len() == 1;
            self.add(Mark::Return { root, value });
        }
    }

    fn lines(&mut self, lines: &[Line], before: &Machine, process: usize) {
        for line in lines {
            self.add(Mark::Kind(line.kind));
            if line.kind == 4 {
                self.add(Mark::Measured(line.b));
            }
        }
        match lines {
            [met, ..] if met.kind == 7 => self.add(Mark::Met {
                carried: sent_kind(before, usize::from(met.process)),
                side: met.c,
                by_sender: usize::from(met.process) == process,
            }),
            [forked, given @ ..] if forked.kind == 5 => self.forked(given),
            _ => {}
        }
    }

    /// Marks of a FORK's kind 6 lines.
    fn forked(&mut self, given: &[Line]) {
        for (index, line) in given.iter().enumerate() {
            self.add(Mark::GivenByFork(line.b));
            for other in &given[index + 1..] {
                let one_channel = line.c == other.c && line.b != 3 && other.b != 3;
                if (line.b, line.c) == (other.b, other.c) {
                    self.add(Mark::GivenTwice(line.b));
                } else if one_channel && (line.b == 4 || other.b == 4) {
                    self.add(Mark::ChannelWithEnd);
                }
            }
        }
    }

    /// What a giving emptied in the giver. Frames do not come or go then.
    fn emptied(&mut self, before: &Machine, after: &Machine, lines: &[Line]) {
        let Some(gave) = lines.iter().find(|line| line.kind == 6) else {
            return;
        };
        let by_fork = lines[0].kind == 5;
        let giver = usize::from(gave.process);
        let old = &before.config.processes[giver].frames;
        let new = &after.config.processes[giver].frames;
        for (index, (old, new)) in old.iter().zip(new).enumerate() {
            let deeper = index + 1 < after.config.processes[giver].frames.len();
            let gone = |(old, new): (&Value, &Value)| *old != *new && *new == Value::Empty;
            for (pending, any) in [
                (false, old.slots.iter().zip(&new.slots).any(gone)),
                (true, old.pending.iter().zip(&new.pending).any(gone)),
            ] {
                if any {
                    self.add(Mark::Emptied { pending, deeper, by_fork });
                }
            }
        }
    }

    fn reached_limits(&mut self, after: &Machine) {
        let config = &after.config;
        let frames = || config.processes.iter().flat_map(|process| &process.frames);
        let deepest = config.processes.iter().map(|process| process.frames.len());
        let limits = [
            (config.processes.len() == MOST_PROCESSES, Mark::AllProcesses),
            (config.qubits == MOST_QUBITS, Mark::AllQubits),
            (config.channels == MOST_CHANNELS, Mark::AllChannels),
            (deepest.max() == Some(MOST_FRAMES), Mark::AllFrames),
            (frames().any(|frame| frame.pending.len() == MOST_PENDING), Mark::AllPending),
        ];
        for (reached, mark) in limits {
            if reached {
                self.add(mark);
            }
        }
    }

    fn ended(&mut self, case: &Case, run: &Run) {
        self.add(Mark::End(run.end.number()));
        if run.entries == case.schedule.len() {
            self.add(Mark::EndAfterLast(run.end.number()));
        }
        Holders::things().for_each(|thing| self.stored(run, thing));
    }

    /// How a thing comes to its holder at the run's end.
    fn stored(&mut self, run: &Run, thing: Thing) {
        let Some(holder) = run.configuration.holders.of(thing) else {
            return self.add(Mark::Stored(StoredHolder::NotMade));
        };
        let given = given_by(&run.lines, thing);
        let alone = match thing {
            Thing::End(channel, side) => {
                run.configuration.holders.of(Thing::End(channel, side.other())) != Some(holder)
            }
            _ => true,
        };
        if alone || !matches!(given, StoredHolder::EndGiven { .. }) {
            self.add(Mark::Stored(given));
        }
        match run.configuration.processes[usize::from(holder)].state {
            State::Running => (),
            State::Finished => self.add(Mark::Stored(StoredHolder::OfFinished)),
            State::Stopped(_) => self.add(Mark::Stored(StoredHolder::OfStopped)),
        }
    }
}

/// How a thing came to its holder, by the line that decides.
fn given_by(lines: &[Line], thing: Thing) -> StoredHolder {
    let Some(index) = deciding_line(lines, thing).filter(|index| lines[*index].kind == 6) else {
        return StoredHolder::ByMaking;
    };
    match (lines[index].b, thing) {
        (4, _) => StoredHolder::ChannelGiven,
        (_, Thing::End(_, side)) => StoredHolder::EndGiven { side: side.number() },
        // A meeting's line stands right before the giving's.
        _ => StoredHolder::QubitGiven { by_fork: lines[index - 1].kind != 7 },
    }
}

/// What question 5 found, and at which op.
fn question_5(words: &[u16]) -> Option<(TypeFaultKind, Op)> {
    let program = read_table(words).ok()?;
    let fault = first_fault(&program)?;
    let mut code = program.methods.iter().flat_map(|method| &method.code);
    Some((fault.why, *code.nth(fault.place)?))
}

/// The operands of a process at SEND or RECV, its end first.
fn meeting_operands(machine: &Machine, process: &Process) -> Option<(Op, Vec<Value>)> {
    let frame = process.top()?;
    let op = machine.program.op(frame.method, frame.place);
    let count = match op {
        Op::Send => 2,
        Op::Receive => 1,
        _ => return None,
    };
    let first = frame.pending.len().checked_sub(count)?;
    Some((op, frame.pending[first..].to_vec()))
}

/// The end over which a process stands at SEND or RECV, if that is not emptied,
/// and the holder of the opposite one by the lines.
fn opposite_holder(machine: &Machine, process: usize) -> Option<((u16, Side), usize)> {
    let (_, operands) = meeting_operands(machine, &machine.config.processes[process])?;
    match operands[0] {
        Value::End(channel, side) => {
            let holder = holder(&machine.lines, Thing::End(channel, side.other()))?;
            Some(((channel, side), usize::from(holder)))
        }
        _ => None,
    }
}

/// Whether a process that waits finds this other one at the opposite op with
/// an emptied operand.
fn not_ready(machine: &Machine, waiting: &Process, other: &Process) -> Option<Mark> {
    let (own_op, own) = meeting_operands(machine, waiting)?;
    let (op, operands) = meeting_operands(machine, other)?;
    if op == own_op || !other.runs() {
        return None;
    }
    let right_end = match own[0] {
        Value::End(channel, side) => Value::End(channel, side.other()),
        _ => return None,
    };
    let end_emptied = operands[0] == Value::Empty;
    let value_emptied = operands[0] == right_end && operands.contains(&Value::Empty);
    let op = op.number();
    (end_emptied || value_emptied).then_some(Mark::NotReady { op, end_emptied })
}

/// The type number of the value that a process at SEND has on top.
fn sent_kind(machine: &Machine, sender: usize) -> u16 {
    let top = machine.config.processes[sender].top();
    match top.and_then(|frame| frame.pending.last()) {
        Some(Value::Int(_)) => 1,
        Some(Value::Bool(_)) => 2,
        _ => 3,
    }
}

/// What the model answers for a case: a run or a refusal.
pub type Answer = Result<Run, Refusal>;

/// Puts a case to the model and counts what it brings about. The ownership
/// statement and the stored holders are looked at after every entry, and the
/// whole run is compared with the stepped one; an error says what was wrong.
pub fn observe(case: &Case, coverage: &mut Coverage) -> Result<Answer, String> {
    let checked = check(&case.program, &case.schedule, &case.outcomes, case.work_len);
    let program = match checked {
        Ok(program) => program,
        Err(refusal) => {
            coverage.refused(case, refusal);
            return Ok(Err(refusal));
        }
    };
    coverage.trace_length(case.trace_len);
    let mut machine = Machine::new(&program, &case.outcomes, case.trace_len);
    stored_holders(&machine.config, &machine.lines)?;
    let mut stepped_end = None;
    for byte in &case.schedule {
        let before = machine.clone();
        match machine.entry(*byte) {
            Ok(did) => coverage.entry(&before, *byte, did, &machine),
            Err(end) => {
                stepped_end = Some(end);
                break;
            }
        }
        ownership_since(&machine.config, &machine.lines, before.lines.len())?;
        // Without a line that decides, the same holders are still those of the lines.
        let new_lines = &machine.lines[before.lines.len()..];
        let decides = new_lines.iter().any(|line| matches!(line.kind, 1 | 2 | 6));
        if decides || machine.config.holders != before.config.holders {
            stored_holders(&machine.config, &machine.lines)?;
        }
    }
    let run = model::run(&program, &case.schedule, &case.outcomes, case.trace_len);
    let end = stepped_end.or(machine.end_reached());
    same_run(&machine, end.unwrap_or(End::ScheduleUsed), &run)?;
    coverage.ended(case, &run);
    Ok(Ok(run))
}

/// The stepped machine must stand where the whole run ended.
fn same_run(machine: &Machine, end: End, run: &Run) -> Result<(), String> {
    let same = run.end == end
        && run.entries == machine.entries
        && run.lines == machine.lines
        && run.outcomes == machine.outcomes_used
        && run.configuration == machine.config;
    match same {
        true => Ok(()),
        false => Err("the stepped and the whole run differ".to_string()),
    }
}
