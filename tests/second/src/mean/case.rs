//! One case: everything that goes into a call.

use super::{mean, Column, Mean, Refused};
use crate::carry::{CarryCase, Given};
use crate::deck::NUMBER;
use crate::world::World;

#[derive(Clone, Debug, PartialEq, Eq)]
pub struct MeanCase {
    pub name: String,
    pub deck: Vec<u16>,
    /// The answers, and what stands after them.
    pub list: Vec<u16>,
    pub asked: Column,
}

impl MeanCase {
    pub fn mean(&self) -> Result<Mean, Refused> {
        mean(&self.deck, &self.list, self.asked)
    }

    /// As goals in a store, for what looks at goals.
    pub fn goals(&self) -> CarryCase {
        CarryCase {
            name: self.name.clone(),
            deck: self.deck.clone(),
            store: self.list.clone(),
            given: Given {
                pending: self.asked.count,
                parked: 0,
                terms: self.asked.terms,
            },
            bars: Vec::new(),
            budget: 0,
            answer_words: 0,
            scratch_words: 0,
        }
    }

    /// The cells of the answers that the list begins with.
    pub fn cells(&self) -> Vec<u16> {
        let mut cells = Vec::new();
        let mut at = 0;
        for length in self.goals().lengths() {
            let end = (at + length).min(self.list.len());
            cells.extend(self.list[at..end].iter().skip(2));
            at = end;
        }
        cells
    }

    /// The numbers' symbols.
    pub fn numbers(&self) -> Vec<u16> {
        let world = World::take_apart(&self.deck, &[]);
        world.map_or(Vec::new(), |world| world.of_kind(|word| word == NUMBER))
    }
}
