//! Texts that are told a reader once and kept for another one: each has a number, and a reader asks what came after it.

use std::collections::BTreeMap;

/// Texts by their numbers, which count from 1.
#[derive(Default)]
pub struct Sequence {
    texts: BTreeMap<u64, Box<str>>,
    last: u64,
}

impl Sequence {
    /// Keeps a text. Its number.
    pub fn add(&mut self, text: String) -> u64 {
        self.last += 1;
        self.texts.insert(self.last, text.into());
        self.last
    }

    /// Forgets the text of a number. Its bytes, 0 where it was not there.
    pub fn remove(&mut self, number: u64) -> usize {
        self.texts.remove(&number).map_or(0, |text| text.len())
    }

    /// The text of a number.
    pub fn get(&self, number: u64) -> Option<&str> {
        self.texts.get(&number).map(AsRef::as_ref)
    }

    /// The number of the text that was added last.
    pub fn last(&self) -> u64 {
        self.last
    }

    /// The texts that were added after the one of this number, in their order.
    pub fn after(&self, number: u64) -> impl Iterator<Item = &str> {
        self.texts.range(number.saturating_add(1)..).map(|(_, text)| text.as_ref())
    }
}
