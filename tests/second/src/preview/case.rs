//! One case: a run's, and the clause that is tried.

use super::{lengthened, preview, Refused};
use crate::case::Case;
use crate::deck;
use crate::evaluation::{Limits, Outcome};

#[derive(Clone, Debug, PartialEq, Eq)]
pub struct PreviewCase {
    /// The run over the deck as it is.
    pub run: Case,
    pub clause: Vec<u16>,
}

impl PreviewCase {
    pub fn limits(&self) -> Limits {
        Limits {
            budget: self.run.budget,
            answer_words: self.run.answer_words,
            store_words: self.run.store_words,
        }
    }

    pub fn preview(&self) -> Result<Outcome, Refused> {
        let Case { deck, query, bars, scratch_words, .. } = &self.run;
        preview(deck, &self.clause, query, bars, self.limits(), *scratch_words)
    }

    /// The copy, if the deck opens and there is one.
    pub fn copy(&self) -> Option<Vec<u16>> {
        deck::open(&self.run.deck).ok()?;
        lengthened(&self.run.deck, &self.clause)
    }
}
