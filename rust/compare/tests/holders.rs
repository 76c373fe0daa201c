//! Paper 7: the stored holders of generated runs, asked for one by one. Word by
//! word they are compared with the model's by run.rs.

use std::collections::BTreeMap;

use data::{Holders, State, Thing};
use generate::{case, Case};
use lanq::{decode, run_in, stored_holder, Answer};
use model::owner::holder;

/// What a case leaves, where it is not refused.
fn ran(case: &Case) -> Option<(Answer, Vec<u16>, Vec<u32>)> {
    let (mut trace, mut work) = (vec![9; case.trace_len], vec![9; case.work_len]);
    let answer = run_in(&case.program, &case.schedule, &case.outcomes, &mut trace, &mut work).ok()?;
    Some((answer, trace, work))
}

/// Each stored holder is the one that the library's own lines give, by the
/// model's reading of them; and what is not there is held by nobody.
#[test]
fn stored_holders_are_those_of_the_lines() {
    let mut met: BTreeMap<&str, u64> = BTreeMap::new();
    for (answer, trace, work) in (0..3_000).filter_map(|seed| ran(&case(seed))) {
        let lines = &lanq::lines(&trace)[..answer.lines];
        let configuration = decode(&work).expect("a configuration");
        for thing in Holders::things() {
            let stored = stored_holder(&work, thing);
            assert_eq!(stored, holder(lines, thing), "{thing}");
            assert_eq!(stored, configuration.holders.of(thing), "{thing}");
            let state = stored.map(|number| configuration.processes[usize::from(number)].state);
            *met.entry(match state {
                None => "not made",
                Some(State::Running) => "held by one that runs",
                Some(State::Finished) => "held by one that has finished",
                Some(State::Stopped(_)) => "held by one that has stopped",
            })
            .or_default() += 1;
        }
        for number in [32, 33, 255, 8_192, u16::MAX] {
            assert_eq!(stored_holder(&work, Thing::Qubit(number)), None, "qubit {number}");
        }
        for number in [16, 17, 255, u16::MAX] {
            let ends = data::Side::ALL.map(|side| stored_holder(&work, Thing::End(number, side)));
            assert_eq!(ends, [None; 2], "channel {number}");
        }
        for number in [0, 1, 15, 16] {
            assert_eq!(stored_holder(&work, Thing::Channel(number)), None, "a channel is asked for by its ends");
        }
        for words in [0, 1, 4_096, 8_191] {
            assert!(Holders::things().all(|thing| stored_holder(&work[..words], thing).is_none()), "{words} words");
        }
    }
    println!("{met:?}");
    assert_eq!(met.len(), 4, "{met:?}");
    assert!(met.values().all(|count| *count > 100), "{met:?}");
}

/// A store that no run has left is none: holders that are no processes of it.
#[test]
fn wrong_holders_are_no_configuration() {
    let (_, _, work) = (0..).find_map(|seed| ran(&case(seed)).filter(|(_, _, work)| work[1] > 0)).expect("a qubit");
    assert!(decode(&work).is_some());
    let made = work[0];
    for (place, word) in [(8_192, 255), (8_192, made), (8_192, 9), (8_223, 0), (8_255, 1), (8_255, 0), (8_192, 65_535)]
    {
        let mut work = work.clone();
        if work[place] != word {
            work[place] = word;
            assert_eq!(decode(&work), None, "word {place} is {word}");
        }
    }
}
