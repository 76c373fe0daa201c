//! The names of a program's methods, slots and labels. Both ways, from name
//! to number and back, go through here.

use crate::error::Place;

/// The names in one method, and where it stands.
#[derive(Clone, Debug, Default, PartialEq, Eq)]
pub struct MethodNames {
    pub name: String,
    /// One for each slot that can be named.
    pub slots: Vec<Option<String>>,
    /// Labels with the instruction after them, from the method's start.
    pub labels: Vec<(String, u16)>,
    /// Where the header stands, in the text or the listing.
    pub header: Option<Place>,
    /// Where each instruction stands; none where there is neither.
    pub places: Vec<Place>,
}

/// What can be named at one method's instructions.
#[derive(Clone, Copy, Debug)]
pub struct Scope<'n> {
    pub methods: &'n [MethodNames],
    pub here: &'n MethodNames,
}

impl<'n> Scope<'n> {
    pub fn slot(self, name: &str) -> Option<u16> {
        let mut slots = self.here.slots.iter();
        index(slots.position(|slot| slot.as_deref() == Some(name)))
    }

    pub fn slot_name(self, slot: u16) -> Option<&'n str> {
        self.here.slots.get(usize::from(slot))?.as_deref()
    }

    pub fn slot_names(self) -> Vec<&'n str> {
        self.here.slots.iter().flatten().map(String::as_str).collect()
    }

    pub fn method(self, name: &str) -> Option<u16> {
        let mut methods = self.methods.iter();
        index(methods.position(|method| method.name == name))
    }

    pub fn method_name(self, method: u16) -> Option<&'n str> {
        let method = self.methods.get(usize::from(method))?;
        Some(&method.name)
    }

    pub fn method_names(self) -> Vec<&'n str> {
        self.methods.iter().map(|method| method.name.as_str()).collect()
    }

    pub fn label(self, name: &str) -> Option<u16> {
        let label = self.here.labels.iter().find(|label| label.0 == name);
        label.map(|label| label.1)
    }

    pub fn label_name(self, instruction: u16) -> Option<&'n str> {
        let mut labels = self.here.labels.iter();
        let label = labels.find(|label| label.1 == instruction)?;
        Some(&label.0)
    }

    pub fn label_names(self) -> Vec<&'n str> {
        self.here.labels.iter().map(|label| label.0.as_str()).collect()
    }
}

/// Methods and slots are few; none has an index beyond a word.
fn index(position: Option<usize>) -> Option<u16> {
    position.and_then(|position| u16::try_from(position).ok())
}
