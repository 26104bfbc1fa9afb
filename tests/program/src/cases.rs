//! The cases that the gate runs, each with the start of its listing.

mod answers;
mod refusals;
mod stops;

use crate::inputs::bytes;
use crate::Inputs;

pub struct Case {
    pub inputs: Inputs,
    /// How the listing starts.
    pub start: &'static str,
}

pub fn all() -> Vec<Case> {
    [
        refusals::by_bytes(),
        refusals::by_words(),
        refusals::loose(),
        answers::deck_l(),
        answers::terms(),
        answers::long_lists(),
        answers::several(),
        stops::finished_open(),
        stops::levels(),
        stops::budget(),
        stops::store(),
        stops::answers(),
    ]
    .into_iter()
    .flatten()
    .collect()
}

/// A deck file and a query, as bytes.
fn given(name: &str, deck: &[u8], query: &[u8], start: &'static str) -> Case {
    let inputs = Inputs::new(name, Some(deck.to_vec()), query.to_vec());
    Case { inputs, start }
}

/// The same as words.
fn case(name: &str, deck: &[u16], query: &[u16], start: &'static str) -> Case {
    given(name, &bytes(deck), &bytes(query), start)
}
