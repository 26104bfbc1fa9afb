//! Rules as text (request U1): reading gives a deck's words, writing a deck's text.

mod case;
pub mod comparison;
mod grammar;
pub mod judge;
mod names;
pub mod program;
mod shrink;
pub mod slips;
mod tokens;
pub mod vectors;
mod write;

pub use case::{ReadCase, WriteCase};
pub use tokens::{tokens, Kind, Token};
pub use write::write;

use crate::world::World;

/// Why a text is not read.
#[derive(Clone, Copy, Debug, PartialEq, Eq)]
pub enum Refused {
    /// 10, and where.
    Text(Fault, usize),
    /// 11: the deck is over 16,384 words.
    Long,
    /// 11: the lent list is too short.
    Room,
    /// 1 to 5.
    Deck(u32),
}

/// What is wrong with a text.
#[derive(Clone, Copy, Debug, PartialEq, Eq)]
pub enum Fault {
    /// The grammar does not take this token.
    Token,
    /// The text ends too early.
    End,
    /// A name is declared for the second time.
    Twice,
    Undeclared,
    /// A name is used with another arity than declared.
    Arity,
}

const MOST_WORDS: usize = 16_384;

impl Refused {
    pub fn number(self) -> u32 {
        match self {
            Refused::Text(..) => 10,
            Refused::Long | Refused::Room => 11,
            Refused::Deck(number) => number,
        }
    }

    pub fn place(self) -> Option<usize> {
        match self {
            Refused::Text(_, place) => Some(place),
            _ => None,
        }
    }
}

/// The deck's words of a text, in a list of so many words: 10, 11, then 1 to 5.
pub fn read(text: &[u8], room: usize) -> Result<Vec<u16>, Refused> {
    let world = world(text)?;
    let words = world.words();
    if words > MOST_WORDS {
        return Err(Refused::Long);
    }
    if words > room {
        return Err(Refused::Room);
    }
    let deck = world.deck();
    match crate::open(&deck) {
        0 => Ok(deck),
        number => Err(Refused::Deck(number)),
    }
}

/// The number of words that a text needs, unless it is refused with 10.
pub fn size(text: &[u8]) -> Option<usize> {
    world(text).ok().map(|world| world.words())
}

/// Whether a text begins with `v2.`
pub fn second_format(text: &[u8]) -> bool {
    let tokens = tokens(text);
    let [first, second, ..] = tokens[..] else {
        return false;
    };
    (first.kind, second.kind) == (Kind::Name(b"v2"), Kind::Mark(b'.'))
}

/// Format, symbols and clauses of a text that is not refused with 10.
fn world(text: &[u8]) -> Result<World, Refused> {
    names::numbered(&grammar::rules(text)?)
}
