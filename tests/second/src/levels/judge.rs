//! Another engine's call held against this evaluator, case by case.

use super::{levels, LevelCase, Levels};
use crate::guarded::Guarded;
use crate::judge::same;
use std::hint::black_box;

/// The shape of the engine's call from C: 0, or the number of the refusal; where a predicate is named, `circular` is one more than its number.
pub trait Engine: Sync {
    fn levels(&self, deck: &[u16], levels: &mut [u16], circular: &mut u32) -> u32;
}

/// This evaluator behind the same call.
pub struct Second;

impl Engine for Second {
    fn levels(&self, deck: &[u16], list: &mut [u16], circular: &mut u32) -> u32 {
        match levels(deck) {
            Ok(found) => {
                hand(&found, list);
                *circular = number(&found);
                0
            }
            Err(number) => number,
        }
    }
}

/// Writes the numbers, as many as there is room for.
pub(super) fn hand(found: &Levels, list: &mut [u16]) {
    let many = list.len().min(found.numbers.len());
    list[..many].copy_from_slice(&found.numbers[..many]);
}

pub(super) fn number(found: &Levels) -> u32 {
    found.circular.map_or(0, |predicate| predicate as u32 + 1)
}

/// What a case must come to, of these names.
pub const LEVELS: [&str; 11] = [
    "all at 0",
    "levels",
    "named",
    "refused 1",
    "refused 2",
    "refused 3",
    "refused 4",
    "refused 5",
    "format 2: all at 0",
    "format 2: levels",
    "format 2: named",
];

/// Stands in a result that is not to be written.
const UNSET: u32 = 0x5a5a_0f0f;

/// Every word of the lent list, the name and the deck itself; gives what the case came to.
pub fn judge(engine: &dyn Engine, case: &LevelCase) -> Result<&'static str, String> {
    let mut list = Guarded::<u16>::new(case.room, 0x5a5a);
    let deck = case.deck.clone();
    let mut circular = UNSET;
    let refused = engine.levels(black_box(&deck), list.lent(), &mut circular);
    same("the deck is unchanged", &(*black_box(&deck) == case.deck), &true)?;
    match case.levels() {
        Ok(expected) => {
            same("refusal", &refused, &0)?;
            same("named", &circular, &number(&expected))?;
            let many = case.room.min(expected.numbers.len());
            list.holds("levels", &expected.numbers[..many], many)?;
            Ok(label(case, &expected))
        }
        Err(number) => {
            same("refusal", &refused, &number)?;
            same("named", &circular, &UNSET)?;
            list.holds("levels", &[], 0)?;
            Ok(LEVELS[number as usize + 2])
        }
    }
}

fn label(case: &LevelCase, found: &Levels) -> &'static str {
    let any = found.numbers.iter().any(|number| *number > 0);
    let first = if case.deck[0] == 2 { 8 } else { 0 };
    LEVELS[first + if found.circular.is_some() { 2 } else { any as usize }]
}
