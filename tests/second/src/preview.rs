//! A query's result as if one clause were added at the deck's end (request U11).

pub mod case;
pub mod comparison;
pub mod judge;
pub mod program;
pub mod slips;
pub mod vectors;

pub use case::PreviewCase;

use crate::deck;
use crate::evaluation::{Limits, Outcome};
use crate::rights::Rules;
use crate::world::World;

pub(crate) const MOST_WORDS: usize = 16_384;

/// Of whose deck or clause a refusal from 1 to 5 is; the others are a run's.
#[derive(Clone, Copy, Debug, PartialEq, Eq)]
pub enum Refused {
    /// 1 to 5 of the deck alone.
    Deck(u32),
    /// 1, 3, 4 or 5 of the lengthened copy.
    Copy(u32),
    /// 6 to 9 or 13 to 16, on the copy.
    Run(u32),
}

impl Refused {
    pub fn number(self) -> u32 {
        match self {
            Refused::Deck(number) | Refused::Copy(number) | Refused::Run(number) => number,
        }
    }
}

/// A deck that opens, with a clause more; nothing where that would be over 16,384 words.
pub fn lengthened(words: &[u16], clause: &[u16]) -> Option<Vec<u16>> {
    let mut world = World::take_apart(words, &[]).expect("a deck that opens hangs together");
    world.clauses.push(clause.to_vec());
    (world.words() <= MOST_WORDS).then(|| world.deck())
}

/// The run on the lengthened copy: the deck alone is checked first, then the copy.
pub fn preview(
    words: &[u16],
    clause: &[u16],
    query: &[u16],
    bars: &[u16],
    limits: Limits,
    scratch_words: usize,
) -> Result<Outcome, Refused> {
    deck::open(words).map_err(Refused::Deck)?;
    let copy = lengthened(words, clause).ok_or(Refused::Copy(1))?;
    deck::open(&copy).map_err(Refused::Copy)?;
    crate::run_with(&copy, query, bars, limits, scratch_words, Rules::RIGHT).map_err(Refused::Run)
}
