//! What the program that presses once prints.

use super::vectors::OUTCOMES;
use super::{press, Record};
use crate::carry::Refused;
use crate::listing::{bar_words, deck_words, words, ANSWERS, SCRATCH, STORE};

/// Six numbers of 64 bits.
const HEADER_BYTES: usize = 48;

/// A refusal's line; or a line with what the press came to, and the display's file after it: the record, the number of answer terms and the goals'
/// words. A missing file, an odd number of bytes, no numbers or more words than the store has: 12.
pub fn press_program(
    deck: Option<&[u8]>,
    display: Option<&[u8]>,
    bars: Option<&[u8]>,
    budget: u32,
) -> Vec<u8> {
    pressed(deck, display, bars, budget)
        .unwrap_or_else(|number| format!("refused {number}\n").into_bytes())
}

fn pressed(
    deck: Option<&[u8]>,
    display: Option<&[u8]>,
    bars: Option<&[u8]>,
    budget: u32,
) -> Result<Vec<u8>, u32> {
    let deck = deck_words(deck)?;
    crate::deck::open(&deck)?;
    let whole = display.filter(|file| file.len() % 2 == 0);
    let (numbers, cells) = whole
        .and_then(|file| file.split_at_checked(HEADER_BYTES))
        .filter(|(_, cells)| cells.len() <= 2 * STORE)
        .ok_or(12u32)?;
    let (record, terms) = read(numbers);
    let mut store = words(cells);
    store.resize(STORE, 0);
    let bars = bar_words(&deck, bars);
    let pressed = press(&deck, &store, record.given(terms), &bars, budget, ANSWERS, SCRATCH)
        .map_err(Refused::number)?;
    let after = record.after(&pressed.outcome);
    let mut bytes = format!("{}\n", OUTCOMES[pressed.number() as usize]).into_bytes();
    bytes.extend(file(after, terms, &pressed.outcome.store_start()));
    Ok(bytes)
}

fn read(numbers: &[u8]) -> (Record, u64) {
    let number = |at: usize| {
        let bytes = numbers[8 * at..8 * at + 8].try_into().expect("8 bytes");
        u64::from_le_bytes(bytes)
    };
    let record = Record {
        steps: number(0),
        cost: number(1),
        answers: number(2),
        pending: number(3),
        parked: number(4),
    };
    (record, number(5))
}

/// The bytes of a display's file.
pub fn file(record: Record, terms: u64, goals: &[u16]) -> Vec<u8> {
    let Record {
        steps,
        cost,
        answers,
        pending,
        parked,
    } = record;
    let numbers = [steps, cost, answers, pending, parked, terms];
    let mut bytes: Vec<u8> = numbers.iter().flat_map(|number| number.to_le_bytes()).collect();
    bytes.extend(goals.iter().flat_map(|word| word.to_le_bytes()));
    bytes
}

/// The number that a budget's first 32 bytes are, up to the first that is no digit.
pub fn digits(text: &[u8]) -> u32 {
    let digits = text.iter().take(32).take_while(|byte| byte.is_ascii_digit());
    digits.fold(0, |n: u32, digit| n.saturating_mul(10).saturating_add(u32::from(digit - b'0')))
}
