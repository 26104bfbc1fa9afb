//! One case: everything that goes into a continued run.

use super::{carry_on, Given, Refused};
use crate::evaluation::Outcome;

#[derive(Clone, Debug, PartialEq, Eq)]
pub struct CarryCase {
    pub name: String,
    pub deck: Vec<u16>,
    /// The whole store.
    pub store: Vec<u16>,
    pub given: Given,
    /// The member's list.
    pub bars: Vec<u16>,
    pub budget: u32,
    pub answer_words: usize,
    pub scratch_words: usize,
}

impl CarryCase {
    pub fn run(&self) -> Result<Outcome, Refused> {
        carry_on(
            &self.deck,
            &self.store,
            self.given,
            &self.bars,
            self.budget,
            self.answer_words,
            self.scratch_words,
        )
    }

    /// The lengths of the goals that the counts name, as far as the store has them.
    pub fn lengths(&self) -> Vec<usize> {
        let most = self.given.pending.saturating_add(self.given.parked);
        let mut lengths = Vec::new();
        let mut at = 0;
        while (lengths.len() as u64) < most && at < self.store.len() {
            let length = (self.store[at] % 4_096) as usize;
            if length < 2 {
                break;
            }
            lengths.push(length);
            at += length;
        }
        lengths
    }

    /// The words that the goals take, at most the store's.
    pub fn words(&self) -> usize {
        self.lengths().iter().sum::<usize>().min(self.store.len())
    }
}
