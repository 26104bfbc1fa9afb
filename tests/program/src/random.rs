//! Random inputs, fixed by their seeds.

use crate::inputs::bytes;
use crate::Inputs;
use second::random::{program_case, Dice};

/// Bytes at random.
pub fn noise(seed: u64) -> Inputs {
    let mut dice = Dice::new(seed ^ 0x6e6f_6973_6500_0000);
    let longest = *dice.pick(&[20, 100, 1_000, 33_000]);
    let deck = random_bytes(&mut dice, longest);
    let longest = *dice.pick(&[8, 100, 1_005]);
    let query = random_bytes(&mut dice, longest);
    Inputs::new(&format!("noise {seed}"), Some(deck), query)
}

/// A deck that may be in order, and a query of bytes or of small cells at random.
pub fn noisy_query(seed: u64) -> Inputs {
    let mut dice = Dice::new(seed ^ 0x7175_6572_7900_0000);
    let (deck, _) = program_case(seed);
    let query = if dice.chance(1, 2) {
        random_bytes(&mut dice, 100)
    } else {
        let cell = |dice: &mut Dice| dice.below(8) as u16 + *dice.pick(&[0, 0, 16_384, 32_768]);
        let cells: Vec<u16> = (0..dice.below(8)).map(|_| cell(&mut dice)).collect();
        bytes(&cells)
    };
    Inputs::new(&format!("noisy query {seed}"), deck, query)
}

/// A few bytes of the deck changed, taken out or put in.
pub fn damaged(seed: u64) -> Inputs {
    let mut dice = Dice::new(seed ^ 0x6465_636b_0000_0000);
    let (deck, query) = program_case(seed);
    let mut deck = deck.unwrap_or_default();
    for _ in 0..dice.range(1, 4) {
        if deck.is_empty() {
            break;
        }
        let at = dice.below(deck.len());
        match dice.below(8) {
            0 => drop(deck.remove(at)),
            1 => deck.insert(at, dice.word() as u8),
            2 => deck.truncate(at),
            3 | 4 => deck[at] = dice.word() as u8,
            _ => deck[at] ^= 1 << dice.below(8),
        }
    }
    Inputs::new(&format!("damaged {seed}"), Some(deck), query)
}

/// As the second evaluator's generator makes them, some damaged.
pub fn case(seed: u64) -> Inputs {
    let (deck, query) = program_case(seed);
    Inputs::new(&format!("random case {seed}"), deck, query)
}

fn random_bytes(dice: &mut Dice, longest: usize) -> Vec<u8> {
    (0..dice.range(0, longest)).map(|_| dice.word() as u8).collect()
}
