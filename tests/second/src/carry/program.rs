//! What the programs that keep open goals and carry on from them print and write.

use super::{carry_on, Given, Refused};
use crate::evaluation::Outcome;
use crate::listing::{asked, bar_words, deck_words, listing, words, ANSWERS, SCRATCH, STORE};

/// Three counts of 64 bits.
const HEADER_BYTES: usize = 24;

/// A listing or a refusal's line, and the bytes of the goals left; none after a refusal.
pub type Printed = (Vec<u8>, Option<Vec<u8>>);

/// As the program, with a member's list and a budget, and with the goals left.
pub fn open_program(
    deck: Option<&[u8]>,
    query: &[u8],
    bars: Option<&[u8]>,
    budget: u32,
) -> Printed {
    match asked(deck, query, bars, budget) {
        Err(number) => refusal(number),
        Ok(asked) => {
            let text = listing(&asked.symbols, &asked.outcome);
            let left = goals(&asked.outcome, asked.terms as u64);
            (text.into_bytes(), Some(left))
        }
    }
}

/// A missing file, an odd number of bytes, no counts or more words than the store has: 12.
pub fn carry_program(
    deck: Option<&[u8]>,
    goals_file: Option<&[u8]>,
    bars: Option<&[u8]>,
    budget: u32,
) -> Printed {
    match carried(deck, goals_file, bars, budget) {
        Err(number) => refusal(number),
        Ok(printed) => printed,
    }
}

fn carried(
    deck: Option<&[u8]>,
    file: Option<&[u8]>,
    bars: Option<&[u8]>,
    budget: u32,
) -> Result<Printed, u32> {
    let deck = deck_words(deck)?;
    let symbols = crate::deck::open(&deck)?.symbols;
    let whole = file.filter(|file| file.len() % 2 == 0);
    let (counts, cells) = whole
        .and_then(|file| file.split_at_checked(HEADER_BYTES))
        .filter(|(_, cells)| cells.len() <= 2 * STORE)
        .ok_or(12u32)?;
    let count = |at: usize| u64::from_le_bytes(counts[at..at + 8].try_into().expect("8 bytes"));
    let given = Given {
        pending: count(0),
        parked: count(8),
        terms: count(16),
    };
    let mut store = words(cells);
    store.resize(STORE, 0);
    let bars = bar_words(&deck, bars);
    let outcome =
        carry_on(&deck, &store, given, &bars, budget, ANSWERS, SCRATCH).map_err(Refused::number)?;
    let left = goals(&outcome, given.terms);
    Ok((listing(&symbols, &outcome).into_bytes(), Some(left)))
}

fn refusal(number: u32) -> Printed {
    (format!("refused {number}\n").into_bytes(), None)
}

/// The two counts, the number of answer terms, then the goals' words.
fn goals(outcome: &Outcome, terms: u64) -> Vec<u8> {
    let counts = [
        outcome.pending.len() as u64,
        outcome.parked.len() as u64,
        terms,
    ];
    let mut bytes: Vec<u8> = counts
        .iter()
        .flat_map(|count| count.to_le_bytes())
        .collect();
    bytes.extend(
        outcome
            .store_start()
            .iter()
            .flat_map(|word| word.to_le_bytes()),
    );
    bytes
}
