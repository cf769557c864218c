//! What came of the calls, so that a group that tries too little fails.

use std::collections::BTreeMap;

#[derive(Clone, Copy, Debug, PartialEq, Eq, PartialOrd, Ord)]
pub enum Came {
    /// A feed's number.
    Feed,
    /// An accepted feed's event.
    Event,
    /// A feed that the allowance stopped: the allowance, 3 for any above 2.
    Stop,
    /// A section's number.
    Give,
    /// An end's number.
    End,
}

#[derive(Default)]
pub struct Tally(BTreeMap<(Came, u64), u64>);

impl Tally {
    pub fn count(&mut self, came: Came, number: u64) {
        *self.0.entry((came, number)).or_default() += 1;
    }

    /// Each of the two must have come.
    pub fn hold(&self, due: &[(Came, u64)]) -> Result<(), String> {
        match due.iter().find(|key| !self.0.contains_key(key)) {
            Some((came, number)) => Err(format!("no {came:?} is {number:#x}")),
            None => Ok(()),
        }
    }

    pub fn text(&self) -> String {
        let counts = self.0.iter().map(|((came, number), count)| format!("{came:?} {number:#x}: {count}"));
        counts.collect::<Vec<String>>().join(", ")
    }
}
