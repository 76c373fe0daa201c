//! Numbers and what they stand for, both ways.

use data::{CarriedType, End, Event, Fault, Gate, Line, Question, Side, Thing, Type};

/// Every number of 16 bits is read as the case that has it, or as none.
fn both_ways<T: Copy + PartialEq + std::fmt::Debug>(
    read: fn(u16) -> Option<T>,
    number: fn(T) -> u16,
    expected: impl IntoIterator<Item = u16>,
) {
    let listed: Vec<u16> = (0..=u16::MAX).filter(|word| read(*word).is_some()).collect();
    assert!(listed.iter().copied().eq(expected), "{listed:?}");
    for word in listed {
        assert_eq!(read(word).map(number), Some(word));
    }
}

#[test]
fn numbers_are_those_of_the_papers() {
    both_ways(Question::read, Question::number, (1..=9).chain(30..=32));
    both_ways(End::read, End::number, 0..=3);
    both_ways(Fault::read, Fault::number, (20..=27).chain([33]));
    both_ways(Gate::read, Gate::number, 1..=8);
    both_ways(Side::read, Side::number, 0..=1);
    both_ways(CarriedType::read, CarriedType::number, 1..=3);
    both_ways(Type::read, Type::number, [0, 1, 2, 3, 17, 18, 19, 33, 34, 35]);
    let thing = |code| Thing::read(code, 7);
    both_ways(thing, Thing::code, 3..=6);
    assert!(Gate::ALL.iter().all(|gate| gate.takes_two() == (gate.number() > 5)));
}

/// The lines of the run that 01 gives whole, and two more kinds; of the
/// measurements one without a click.
#[test]
fn lines_and_what_they_tell() {
    let u = 65_535;
    for (words, event, printed) in [
        ([0, 0, 1, 0, u, u], Event::QubitMade { qubit: 0 }, "0 0 1 0 - -"),
        ([3, 0, 2, 0, u, u], Event::ChannelMade { channel: 0 }, "3 0 2 0 - -"),
        ([9, 2, 3, 6, 4, 1], Event::Gate { gate: Gate::Cx, qubit: 4, second: Some(1) }, "9 2 3 6 4 1"),
        ([15, 1, 3, 4, 0, u], Event::Gate { gate: Gate::H, qubit: 0, second: None }, "15 1 3 4 0 -"),
        ([9, 2, 4, 31, 1, u], Event::Measured { qubit: 31, outcome: 1 }, "9 2 4 31 1 -"),
        ([9, 2, 4, 31, 2, u], Event::Measured { qubit: 31, outcome: 2 }, "9 2 4 31 2 -"),
        ([10, 0, 5, 1, 1, 1], Event::Forked { child: 1, method: 1, arguments: 1 }, "10 0 5 1 1 1"),
        ([10, 0, 6, 1, 6, 0], Event::Gave { to: 1, thing: Thing::End(0, Side::One) }, "10 0 6 1 6 0"),
        ([14, 0, 7, 1, 0, 0], Event::Met { receiver: 1, channel: 0, side: Side::Zero }, "14 0 7 1 0 0"),
        ([14, 0, 8, u - 1, u, u], Event::Passed { value: -2 }, "14 0 8 65534 65535 -"),
        ([16, 1, 9, u, u, u], Event::Finished, "16 1 9 - - -"),
        ([17, 0, 10, 20, u, u], Event::Stopped { fault: Fault::Empty }, "17 0 10 20 - -"),
    ] {
        let line = Line::from_words(words);
        assert_eq!(line.words(), words);
        assert_eq!(line.event(), Some(event));
        assert_eq!(event.line(words[0], words[1]), line);
        assert_eq!(line.to_string(), printed);
    }
}

/// Words that no run writes as a line say nothing.
#[test]
fn other_words_tell_nothing() {
    let u = 65_535;
    for words in [
        [0, 0, 0, u, u, u],
        [0, 0, 11, u, u, u],
        [0, 0, 1, 0, 0, u],
        [0, 0, 3, 9, 0, u],
        [0, 0, 3, 4, 0, 1],
        [0, 0, 4, 0, 3, u],
        [0, 0, 4, 0, 256, u],
        [0, 0, 6, 1, 7, 0],
        [0, 0, 7, 1, 0, 2],
        [0, 0, 9, 0, u, u],
        [0, 0, 10, 28, u, u],
    ] {
        assert_eq!(Line::from_words(words).event(), None, "{words:?}");
    }
}
