//! What the cases of a batch came to, as a table.

use std::collections::BTreeMap;
use std::fmt;

use data::{End, Fault, Question};

use crate::json::Json;

/// Counts over the cases.
#[derive(Clone, Debug, Default, PartialEq, Eq)]
pub struct Summary {
    pub cases: usize,
    pub ends: BTreeMap<i64, usize>,
    pub refused: BTreeMap<i64, usize>,
    /// Processes stopped by each fault.
    pub faults: BTreeMap<i64, usize>,
    /// Cases that could not be read, with the reason.
    pub unread: Vec<String>,
}

impl Summary {
    /// Takes up a result.
    pub fn add(&mut self, json: &Json) {
        self.cases += 1;
        let number = |json: Option<&Json>| json.and_then(Json::as_number);
        if let Some(why) = json.get("error").and_then(Json::as_text) {
            self.unread.push(why.to_string());
        } else if let Some(refused) = number(json.get("refused").and_then(|refused| refused.get("number"))) {
            *self.refused.entry(refused).or_default() += 1;
        } else if let Some(end) = number(json.get("end")) {
            *self.ends.entry(end).or_default() += 1;
        }
        for fault in json.get("faults").map(Json::as_list).unwrap_or_default() {
            if let Some(fault) = number(fault.get("fault")) {
                *self.faults.entry(fault).or_default() += 1;
            }
        }
    }

    /// Whether every case has run.
    pub fn all_ran(&self) -> bool {
        self.ends.values().sum::<usize>() == self.cases
    }
}

impl fmt::Display for Summary {
    fn fmt(&self, f: &mut fmt::Formatter) -> fmt::Result {
        let ran: usize = self.ends.values().sum();
        let refused: usize = self.refused.values().sum();
        let cases = if self.cases == 1 { "case" } else { "cases" };
        writeln!(f, "{} {cases}: {ran} ran, {refused} refused, {} not read", self.cases, self.unread.len())?;
        for end in End::ALL {
            let count = self.ends.get(&i64::from(end.number())).copied().unwrap_or_default();
            writeln!(f, "{count:8}  end {}      {end}", end.number())?;
        }
        for (number, count) in &self.refused {
            let question = u16::try_from(*number).ok().and_then(Question::read);
            writeln!(f, "{count:8}  refused {number}  {}", words(question.map(Question::topic)))?;
        }
        for (number, count) in &self.faults {
            let fault = u16::try_from(*number).ok().and_then(Fault::read);
            writeln!(f, "{count:8}  fault {number}   {} (processes)", words(fault))?;
        }
        Ok(())
    }
}

fn words<T: fmt::Display>(what: Option<T>) -> String {
    what.map_or_else(|| "unknown".to_string(), |what| what.to_string())
}
