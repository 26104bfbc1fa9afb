//! One case: everything that goes into a press.

use super::{press, Pressed, Record};
use crate::carry::Refused;

#[derive(Clone, Debug, PartialEq, Eq)]
pub struct PressCase {
    pub name: String,
    pub deck: Vec<u16>,
    /// The whole store.
    pub store: Vec<u16>,
    pub record: Record,
    pub terms: u64,
    /// The member's list.
    pub bars: Vec<u16>,
    pub budget: u32,
    pub answer_words: usize,
    pub scratch_words: usize,
}

impl PressCase {
    pub fn press(&self) -> Result<Pressed, Refused> {
        press(
            &self.deck,
            &self.store,
            self.record.given(self.terms),
            &self.bars,
            self.budget,
            self.answer_words,
            self.scratch_words,
        )
    }
}
