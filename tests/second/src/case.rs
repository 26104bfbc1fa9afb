//! One case: everything that goes into a run.

use crate::evaluation::Outcome;

#[derive(Clone, Debug, PartialEq, Eq)]
pub struct Case {
    pub name: String,
    pub deck: Vec<u16>,
    pub query: Vec<u16>,
    /// The member's list.
    pub bars: Vec<u16>,
    pub budget: u32,
    pub answer_words: usize,
    pub store_words: usize,
    pub scratch_words: usize,
}

impl Case {
    pub fn run(&self) -> Result<Outcome, u32> {
        crate::run(
            &self.deck,
            &self.query,
            &self.bars,
            self.budget,
            self.answer_words,
            self.store_words,
            self.scratch_words,
        )
    }
}
