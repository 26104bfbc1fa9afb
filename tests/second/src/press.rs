//! One press, one step (request U14).

mod case;
pub mod comparison;
pub mod judge;
pub mod program;
pub mod slips;
pub mod vectors;

pub use case::PressCase;

use crate::carry::{started, Given, Refused};
use crate::evaluation::{self, Outcome, Stop};
use crate::rights::Rules;

/// The display's record.
#[derive(Clone, Copy, Debug, Default, PartialEq, Eq)]
pub struct Record {
    pub steps: u64,
    pub cost: u64,
    pub answers: u64,
    pub pending: u64,
    pub parked: u64,
}

/// A press: nothing, for a step that was taken, or the stop that prevented it; and what it left. The outcome's own stop says nothing.
pub struct Pressed {
    pub stop: Option<Stop>,
    pub outcome: Outcome,
}

/// What "stepped" is from C; the stops are 0 to 3.
pub const STEPPED: u32 = 4;

impl Pressed {
    pub fn number(&self) -> u32 {
        self.stop.map_or(STEPPED, |stop| stop as u32)
    }
}

impl Record {
    /// The record after a press: three counts grow, up to the greatest value; two are set.
    pub fn after(self, outcome: &Outcome) -> Record {
        let count = |goals: &[Vec<u16>]| goals.len() as u64;
        Record {
            steps: self.steps.saturating_add(outcome.steps as u64),
            cost: self.cost.saturating_add(outcome.cost as u64),
            answers: self.answers.saturating_add(count(&outcome.answers)),
            pending: count(&outcome.pending),
            parked: count(&outcome.parked),
        }
    }

    /// Of the goals that it counts, with so many answer terms.
    pub fn given(self, terms: u64) -> Given {
        Given {
            pending: self.pending,
            parked: self.parked,
            terms,
        }
    }
}

/// One step from the store's goals, or the refusal: the checks are those of continued runs.
pub fn press(
    deck: &[u16],
    store: &[u16],
    given: Given,
    bars: &[u16],
    budget: u32,
    answer_words: usize,
    scratch_words: usize,
) -> Result<Pressed, Refused> {
    let sizes = (answer_words, scratch_words);
    press_with(deck, store, given, bars, budget, sizes, Rules::RIGHT)
}

/// The lengths of answers and scratch are `sizes`.
fn press_with(
    deck: &[u16],
    store: &[u16],
    given: Given,
    bars: &[u16],
    budget: u32,
    sizes: (usize, usize),
    rules: Rules,
) -> Result<Pressed, Refused> {
    let (deck, start, limits) = started(deck, store, given, bars, budget, sizes, rules)?;
    let (stop, outcome) = evaluation::press(&deck, start, limits, rules.slip);
    Ok(Pressed { stop, outcome })
}
