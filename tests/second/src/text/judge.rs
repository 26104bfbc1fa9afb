//! Another engine's two calls held against this evaluator, case by case.

use super::{second_format, Fault, ReadCase, Refused, WriteCase};
use crate::deck::NUMBER;
use crate::guarded::Guarded;
use crate::judge::same;
use crate::world::World;
use std::hint::black_box;

/// The shape of the engine's calls from C: 0, or the number of the refusal.
pub trait Engine: Sync {
    fn read(&self, text: &[u8], deck: &mut [u16], words: &mut usize, place: &mut usize) -> u32;
    fn write(&self, deck: &[u16], text: &mut [u8], bytes: &mut usize) -> u32;
}

/// This evaluator behind the same calls.
pub struct Second;

impl Engine for Second {
    fn read(&self, text: &[u8], deck: &mut [u16], words: &mut usize, place: &mut usize) -> u32 {
        match super::read(text, deck.len()) {
            Ok(found) => {
                deck[..found.len()].copy_from_slice(&found);
                *words = found.len();
                0
            }
            Err(refused) => {
                *place = refused.place().unwrap_or(*place);
                refused.number()
            }
        }
    }

    fn write(&self, deck: &[u16], text: &mut [u8], bytes: &mut usize) -> u32 {
        match super::write(deck, text.len()) {
            Ok(found) => {
                text[..found.len()].copy_from_slice(&found);
                *bytes = found.len();
                0
            }
            Err(number) => number,
        }
    }
}

/// What a case must come to, of these names.
pub const READS: [&str; 16] = [
    "read",
    "read: 10, token",
    "read: 10, end",
    "read: 10, declared twice",
    "read: 10, undeclared",
    "read: 10, arity",
    "read: 11, over 16,384 words",
    "read: 11, list too short",
    "read: 1",
    "read: 4",
    "read: 5",
    "read: 2",
    "read, format 2",
    "read, format 2 without numbers",
    "read: 11, format 2 over 16,384 words",
    "read: 11, format 2, list too short",
];
pub const WRITES: [&str; 10] = [
    "written",
    "write: 1",
    "write: 2",
    "write: 3",
    "write: 4",
    "write: 5",
    "write: 11",
    "written, format 2",
    "written, format 2 without numbers",
    "write: 11, format 2",
];

/// Stands in a result that is not to be written.
const UNSET: usize = 0x5a5a_0f0f_5a5a;

/// Every word of the lent list, both numbers and the text itself; gives what the case came to.
pub fn judge_read(engine: &dyn Engine, case: &ReadCase) -> Result<&'static str, String> {
    let mut deck = Guarded::<u16>::new(case.room, 0x5a5a);
    let text = case.text.clone();
    let (mut words, mut place) = (UNSET, UNSET);
    let number = engine.read(black_box(&text), deck.lent(), &mut words, &mut place);
    same(
        "the text is unchanged",
        &(*black_box(&text) == case.text),
        &true,
    )?;
    match case.read() {
        Ok(expected) => {
            same("refusal", &(number, place), &(0, UNSET))?;
            same("words", &words, &expected.len())?;
            deck.holds("deck", &expected, expected.len())?;
            Ok(READS[[0, 12, 13][format(&expected)]])
        }
        Err(refused) => {
            let place_then = refused.place().unwrap_or(UNSET);
            same(
                "refusal and place",
                &(number, place),
                &(refused.number(), place_then),
            )?;
            same("words", &words, &UNSET)?;
            let free = matches!(refused, Refused::Deck(_));
            deck.holds("deck", &[], if free { case.room } else { 0 })?;
            Ok(label(refused, second_format(&case.text)))
        }
    }
}

/// 0 for format 1, 1 for format 2, 2 where that has no numbers.
fn format(deck: &[u16]) -> usize {
    match deck[0] {
        1 => 0,
        _ if World::take_apart(deck, &[]).is_some_and(|world| world.symbols.contains(&NUMBER)) => 1,
        _ => 2,
    }
}

fn label(refused: Refused, second_format: bool) -> &'static str {
    match refused {
        Refused::Long if second_format => READS[14],
        Refused::Room if second_format => READS[15],
        Refused::Deck(2) => READS[11],
        Refused::Text(Fault::Token, _) => READS[1],
        Refused::Text(Fault::End, _) => READS[2],
        Refused::Text(Fault::Twice, _) => READS[3],
        Refused::Text(Fault::Undeclared, _) => READS[4],
        Refused::Text(Fault::Arity, _) => READS[5],
        Refused::Long => READS[6],
        Refused::Room => READS[7],
        Refused::Deck(1) => READS[8],
        Refused::Deck(4) => READS[9],
        Refused::Deck(5) => READS[10],
        Refused::Deck(number) => unreachable!("a text is never refused with {number}"),
    }
}

/// Every byte of the lent list, the number of bytes and the deck itself.
pub fn judge_write(engine: &dyn Engine, case: &WriteCase) -> Result<&'static str, String> {
    let mut text = Guarded::<u8>::new(case.room, 0x3c3c);
    let deck = case.deck.clone();
    let mut bytes = UNSET;
    let number = engine.write(black_box(&deck), text.lent(), &mut bytes);
    same(
        "the deck is unchanged",
        &(*black_box(&deck) == case.deck),
        &true,
    )?;
    match case.write() {
        Ok(expected) => {
            same("refusal", &number, &0)?;
            same("bytes", &bytes, &expected.len())?;
            text.holds("text", &expected, expected.len())?;
            Ok(WRITES[[0, 7, 8][format(&case.deck)]])
        }
        Err(refused) => {
            same("refusal", &number, &refused)?;
            same("bytes", &bytes, &UNSET)?;
            text.holds("text", &[], 0)?;
            Ok(match refused {
                11 if case.deck[0] == 2 => WRITES[9],
                11 => WRITES[6],
                _ => WRITES[refused as usize],
            })
        }
    }
}
