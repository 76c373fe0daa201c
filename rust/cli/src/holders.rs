//! Who holds what, by the lines so far: "of the thing's lines of kinds 1, 2
//! and 6 the last decides". Taken up line by line, so that a long trace is
//! read once.

use std::collections::BTreeMap;

use data::{Event, Line, Side, Thing};

/// Qubits and channel ends with their holders.
#[derive(Clone, Debug, Default, PartialEq, Eq)]
pub struct Holders {
    pub qubits: BTreeMap<u16, u16>,
    /// By channel and side.
    pub ends: BTreeMap<(u16, Side), u16>,
}

impl Holders {
    /// The holders by these lines.
    pub fn by(lines: &[Line]) -> Holders {
        let mut holders = Holders::default();
        lines.iter().for_each(|line| holders.read(line));
        holders
    }

    /// Takes up the next line.
    pub fn read(&mut self, line: &Line) {
        match line.event() {
            Some(Event::QubitMade { qubit }) => self.gets(line.process, Thing::Qubit(qubit)),
            Some(Event::ChannelMade { channel }) => self.gets(line.process, Thing::Channel(channel)),
            Some(Event::Gave { to, thing }) => self.gets(to, thing),
            _ => (),
        }
    }

    /// "a channel's lines count for both its ends"
    fn gets(&mut self, holder: u16, thing: Thing) {
        match thing {
            Thing::Qubit(qubit) => {
                self.qubits.insert(qubit, holder);
            }
            Thing::Channel(channel) => {
                self.ends.extend(Side::ALL.map(|side| ((channel, side), holder)));
            }
            Thing::End(channel, side) => {
                self.ends.insert((channel, side), holder);
            }
        }
    }

    /// By process: `q0` is qubit 0, `c1.0` end 0 of channel 1.
    pub fn text(&self) -> String {
        let mut held: BTreeMap<u16, String> = BTreeMap::new();
        for (qubit, holder) in &self.qubits {
            *held.entry(*holder).or_default() += &format!(" q{qubit}");
        }
        for ((channel, side), holder) in &self.ends {
            *held.entry(*holder).or_default() += &format!(" c{channel}.{side}");
        }
        let held = held.iter();
        let held: Vec<String> = held.map(|(holder, things)| format!("by {holder}:{things}")).collect();
        match held.is_empty() {
            true => "nothing yet".to_string(),
            false => held.join("; "),
        }
    }
}
