//! Wrong about the stored holders, Paper 7.

use compare::result::{by_model, Buffers, RunResult};
use data::{Holders, Line, Process, Refusal, Run, Side, State, Thing, WORK_WORDS};
use generate::Case;
use model::owner::{holder, reach};
use model::table::Program;

use crate::rules::{Rules, RIGHT};
use crate::Wrong;

pub const WRONG: [Wrong; 11] = [
    ("8,192 words are enough", Rules { check: old_length, leave: short_store, ..RIGHT }),
    ("what is not made is held by 0", Rules { leave: not_made_0, ..RIGHT }),
    ("what is not made is kept as it was", Rules { leave: not_made_kept, ..RIGHT }),
    ("a finished process holds nothing", Rules { leave: finished_drops, ..RIGHT }),
    ("a stopped process holds nothing", Rules { leave: stopped_drops, ..RIGHT }),
    ("only what is reached is held", Rules { leave: by_reach, ..RIGHT }),
    ("a channel that is given leaves its ends", Rules { leave: channel_given, ..RIGHT }),
    ("an end that is given takes the other along", Rules { leave: both_ends, ..RIGHT }),
    ("a meeting stores no holder", Rules { leave: no_meeting, ..RIGHT }),
    ("a fork stores no holder", Rules { leave: no_fork, ..RIGHT }),
    ("the ends stand by side and not by channel", Rules { leave: by_side, ..RIGHT }),
];

type ModelRun = Result<Run, Refusal>;

fn old_length(case: &Case) -> Result<Program, Refusal> {
    match case.work_len {
        8_192..WORK_WORDS => model::check(&case.program, &case.schedule, &case.outcomes, WORK_WORDS),
        _ => (RIGHT.check)(case),
    }
}

/// The holders do not fit.
fn short_store(case: &Case, ran: &ModelRun, buffers: Buffers) -> RunResult {
    match ran {
        Ok(run) if case.work_len < WORK_WORDS => RunResult { answer: Ok(run.answer()), buffers, configuration: None },
        _ => by_model(ran, buffers),
    }
}

/// The right leavings, with other words for the holders.
fn storing(ran: &ModelRun, buffers: Buffers, word: impl Fn(&Run, Thing, Option<u32>) -> Option<u32>) -> RunResult {
    let mut left = by_model(ran, buffers);
    if let Ok(run) = ran {
        let words = &mut left.buffers.lent().1[8_192..WORK_WORDS];
        for (place, thing) in words.iter_mut().zip(Holders::things()) {
            let stored = run.configuration.holders.of(thing).map(u32::from);
            *place = word(run, thing, stored).unwrap_or(255);
        }
    }
    left
}

fn not_made_0(_: &Case, ran: &ModelRun, buffers: Buffers) -> RunResult {
    storing(ran, buffers, |_, _, stored| Some(stored.unwrap_or(0)))
}

fn not_made_kept(_: &Case, ran: &ModelRun, mut buffers: Buffers) -> RunResult {
    let mut old = buffers.lent().1.get(8_192..).unwrap_or_default().to_vec().into_iter();
    let mut left = by_model(ran, buffers);
    if ran.is_ok() {
        for word in &mut left.buffers.lent().1[8_192..WORK_WORDS] {
            let old = old.next().unwrap_or(0);
            if *word == 255 {
                *word = old;
            }
        }
    }
    left
}

/// Nobody, where the holder is so.
fn dropped(ran: &ModelRun, buffers: Buffers, drops: fn(&Process) -> bool) -> RunResult {
    storing(ran, buffers, |run, _, stored| {
        stored.filter(|number| !drops(&run.configuration.processes[*number as usize]))
    })
}

fn finished_drops(_: &Case, ran: &ModelRun, buffers: Buffers) -> RunResult {
    dropped(ran, buffers, |process| process.state == State::Finished)
}

fn stopped_drops(_: &Case, ran: &ModelRun, buffers: Buffers) -> RunResult {
    dropped(ran, buffers, |process| matches!(process.state, State::Stopped(_)))
}

fn by_reach(_: &Case, ran: &ModelRun, buffers: Buffers) -> RunResult {
    storing(ran, buffers, |run, thing, stored| {
        stored.filter(|number| reach(&run.configuration.processes[*number as usize]).contains(&thing))
    })
}

/// The holder by those lines alone that pass.
fn by_lines(ran: &ModelRun, buffers: Buffers, passes: fn(&[Line], usize) -> bool) -> RunResult {
    storing(ran, buffers, |run, thing, _| {
        let lines = run.lines.iter().enumerate();
        let lines = lines.filter(|(index, _)| passes(&run.lines, *index)).map(|(_, line)| *line);
        holder(&lines.collect::<Vec<Line>>(), thing).map(u32::from)
    })
}

fn channel_given(_: &Case, ran: &ModelRun, buffers: Buffers) -> RunResult {
    by_lines(ran, buffers, |lines, index| lines[index].kind != 6 || lines[index].b != 4)
}

fn both_ends(_: &Case, ran: &ModelRun, buffers: Buffers) -> RunResult {
    storing(ran, buffers, |run, thing, stored| match thing {
        Thing::End(channel, _) => {
            // The last line of either end.
            let as_channels = run.lines.iter().map(|line| match line.kind {
                6 if line.b > 4 => Line { b: 4, ..*line },
                _ => *line,
            });
            holder(&as_channels.collect::<Vec<Line>>(), Thing::End(channel, Side::Zero)).map(u32::from)
        }
        _ => stored,
    })
}

fn no_meeting(_: &Case, ran: &ModelRun, buffers: Buffers) -> RunResult {
    by_lines(ran, buffers, |lines, index| index == 0 || lines[index].kind != 6 || lines[index - 1].kind != 7)
}

fn no_fork(_: &Case, ran: &ModelRun, buffers: Buffers) -> RunResult {
    by_lines(ran, buffers, |lines, index| lines[index].kind != 6 || index > 0 && lines[index - 1].kind == 7)
}

fn by_side(_: &Case, ran: &ModelRun, buffers: Buffers) -> RunResult {
    let mut left = by_model(ran, buffers);
    if ran.is_ok() {
        let ends = &mut left.buffers.lent().1[8_224..WORK_WORDS];
        let old = ends.to_vec();
        for (index, word) in old.into_iter().enumerate() {
            ends[16 * (index % 2) + index / 2] = word;
        }
    }
    left
}
