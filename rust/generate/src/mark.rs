//! What a case can bring about.

use model::gone::NoPartner;
use model::machine::Readiness;
use model::typing::TypeFaultKind;

/// Something that a case can bring about. Ops, kinds, faults, ends, types and
/// gates are named by 01's numbers.
#[derive(Clone, Copy, Debug, PartialEq, Eq, PartialOrd, Ord)]
pub enum Mark {
    /// A question's no.
    Refusal(u16),
    /// The same at a place other than 0.
    RefusalFurtherOn(u16),
    /// What question 5 found.
    Question5(TypeFaultKind),
    /// An op after which question 5 found something pending.
    PendingAfter(u16),
    /// An op that was executed.
    Op(u16),
    Gate(u16),
    NewChannel(u16),
    EndSide(u16),
    /// JFALSE, by whether it jumped.
    JumpOnFalse(bool),
    /// RET, of the root frame or not, with a value or not.
    Return {
        root: bool,
        value: bool,
    },
    /// A fault at an op.
    Fault {
        fault: u16,
        op: u16,
    },
    /// Fault 33 at SEND or RECV, by why the partner has gone.
    Gone {
        why: NoPartner,
        op: u16,
    },
    /// Fault 33 because 33 has stopped the partner.
    GoneByGone,
    /// Fault 20 at SEND or RECV where without it there would be 33.
    EmptyBeforeGone(u16),
    Kind(u16),
    /// A measurement, by its outcome.
    Measured(u16),
    /// A meeting, by carried type, the sender's side, and who was named.
    Met {
        carried: u16,
        side: u16,
        by_sender: bool,
    },
    /// A thing given by FORK, as a kind 6 line names it.
    GivenByFork(u16),
    /// One FORK with the same thing twice.
    GivenTwice(u16),
    /// One FORK with a channel and one of its ends.
    ChannelWithEnd,
    /// A giving that emptied a slot (or a pending value) of a frame, the top
    /// frame or a deeper one.
    Emptied {
        pending: bool,
        deeper: bool,
        by_fork: bool,
    },
    /// An idle entry, by how the process stood.
    Idle(Readiness),
    /// An idle entry of a byte above 7.
    IdleBeyond,
    /// An idle entry at SEND or RECV.
    WaitsAt(u16),
    /// An idle entry at SEND or RECV while another process stands at the
    /// opposite op, which is named here, with an emptied operand: its end, or
    /// only its value while its end is the right one.
    NotReady {
        op: u16,
        end_emptied: bool,
    },
    /// An idle entry at SEND or RECV while the opposite end's holder runs and
    /// no longer reaches that end.
    HeldOutOfReach(u16),
    /// How a stored holder stands at a run's end.
    Stored(StoredHolder),
    /// A limit reached without a fault.
    AllProcesses,
    AllQubits,
    AllChannels,
    AllFrames,
    AllPending,
    /// An entry taken with a full trace.
    FullTraceGoesOn,
    End(u16),
    /// An end that stands right after the schedule's last byte.
    EndAfterLast(u16),
    /// A trace without a word, with a part of a line, with whole lines only.
    NoTrace,
    PartOfALine,
    WholeLines,
}

/// How a run's final configuration comes to store the holder of a qubit or an
/// end, Paper 7.
#[derive(Clone, Copy, Debug, PartialEq, Eq, PartialOrd, Ord)]
pub enum StoredHolder {
    /// The thing was never made.
    NotMade,
    /// Its maker has never given it away.
    ByMaking,
    /// A qubit, at a fork or at a meeting.
    QubitGiven {
        by_fork: bool,
    },
    /// An end, with its channel.
    ChannelGiven,
    /// An end alone, by its side; the other one has another holder.
    EndGiven {
        side: u16,
    },
    /// The holder has finished, or has stopped.
    OfFinished,
    OfStopped,
}

impl StoredHolder {
    pub const ALL: [StoredHolder; 9] = [
        StoredHolder::NotMade,
        StoredHolder::ByMaking,
        StoredHolder::QubitGiven { by_fork: false },
        StoredHolder::QubitGiven { by_fork: true },
        StoredHolder::ChannelGiven,
        StoredHolder::EndGiven { side: 0 },
        StoredHolder::EndGiven { side: 1 },
        StoredHolder::OfFinished,
        StoredHolder::OfStopped,
    ];
}

/// Every mark that can be seen.
pub fn all_marks() -> Vec<Mark> {
    let mut marks = refusal_marks();
    marks.extend(op_marks());
    marks.extend(fault_marks());
    marks.extend(meeting_marks());
    marks.extend(giving_marks());
    marks.extend((1..=10).map(Mark::Kind));
    marks.extend((0..=2).map(Mark::Measured));
    marks.extend((0..=3).map(Mark::End));
    marks.extend((0..=2).map(Mark::EndAfterLast));
    marks.extend(StoredHolder::ALL.map(Mark::Stored));
    marks.extend([
        Mark::AllProcesses,
        Mark::AllQubits,
        Mark::AllChannels,
        Mark::AllFrames,
        Mark::AllPending,
        Mark::FullTraceGoesOn,
        Mark::NoTrace,
        Mark::PartOfALine,
        Mark::WholeLines,
    ]);
    marks
}

fn refusal_marks() -> Vec<Mark> {
    let mut marks: Vec<Mark> = (1..=8).map(Mark::Refusal).collect();
    marks.extend((2..=6).map(Mark::RefusalFurtherOn));
    let whys = [
        TypeFaultKind::PendingAtTarget,
        TypeFaultKind::OperandMissing,
        TypeFaultKind::OperandType,
        TypeFaultKind::TooManyPending,
        TypeFaultKind::PendingAfter,
        TypeFaultKind::NotClosed,
    ];
    marks.extend(whys.map(Mark::Question5));
    marks.extend([5, 6, 13, 14, 15, 17, 18].map(Mark::PendingAfter));
    marks
}

fn op_marks() -> Vec<Mark> {
    let mut marks: Vec<Mark> = (1..=23).map(Mark::Op).collect();
    marks.extend((1..=8).map(Mark::Gate));
    marks.extend((1..=3).map(Mark::NewChannel));
    marks.extend((0..=1).map(Mark::EndSide));
    for flag in [false, true] {
        marks.push(Mark::JumpOnFalse(flag));
        marks.extend([false, true].map(|value| Mark::Return { root: flag, value }));
    }
    marks
}

/// Every fault at every op that can have it. Ints and booleans are never
/// emptied, so their ops do not have fault 20.
fn fault_marks() -> Vec<Mark> {
    let faults: [(u16, &[u16]); 9] = [
        (20, &[3, 4, 5, 9, 10, 11, 12, 13, 14, 15, 16]),
        (21, &[8]),
        (22, &[7]),
        (23, &[14]),
        (24, &[11]),
        (25, &[12]),
        (26, &[19, 20]),
        (27, &[10]),
        (33, &[15, 16]),
    ];
    let mut marks = gone_marks();
    let at_ops = faults.into_iter().flat_map(|(fault, ops)| {
        let ops = ops.iter();
        ops.map(move |op| Mark::Fault { fault, op: *op })
    });
    marks.extend(at_ops);
    marks
}

/// Paper 6: each reason at each op. An emptied end names no channel, so at RECV
/// 20 comes alone.
fn gone_marks() -> Vec<Mark> {
    let mut marks = vec![Mark::GoneByGone, Mark::EmptyBeforeGone(15)];
    for op in [15, 16] {
        marks.push(Mark::HeldOutOfReach(op));
        marks.extend([NoPartner::Itself, NoPartner::Finished, NoPartner::Stopped].map(|why| Mark::Gone { why, op }));
    }
    marks
}

fn meeting_marks() -> Vec<Mark> {
    let mut marks = vec![
        Mark::Idle(Readiness::NotStarted),
        Mark::Idle(Readiness::Finished),
        Mark::Idle(Readiness::Stopped),
        Mark::Idle(Readiness::Waits),
        Mark::IdleBeyond,
    ];
    for op in [15, 16] {
        let end_emptied = true;
        marks.extend([Mark::WaitsAt(op), Mark::NotReady { op, end_emptied }]);
    }
    marks.push(Mark::NotReady { op: 15, end_emptied: false });
    for carried in 1..=3 {
        for side in 0..=1 {
            marks.extend([false, true].map(|by_sender| Mark::Met { carried, side, by_sender }));
        }
    }
    marks
}

fn giving_marks() -> Vec<Mark> {
    let mut marks = vec![Mark::ChannelWithEnd];
    for thing in 3..=6 {
        marks.extend([Mark::GivenByFork(thing), Mark::GivenTwice(thing)]);
    }
    // FORK and SEND leave nothing pending in their own frame.
    for by_fork in [false, true] {
        for (pending, deeper) in [(false, false), (false, true), (true, true)] {
            marks.push(Mark::Emptied { pending, deeper, by_fork });
        }
    }
    marks
}
