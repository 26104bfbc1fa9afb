//! What the two programs over reading and writing print.

use super::{read, write, Refused};

/// Longer texts are refused with 11, whatever they hold.
pub const MOST_TEXT_BYTES: usize = 262_144;
const MOST_DECK_BYTES: usize = 32_768;

/// The words, low byte first, or a line with the refusal.
pub fn read_program(text: &[u8]) -> Vec<u8> {
    if text.len() > MOST_TEXT_BYTES {
        return b"refused 11\n".to_vec();
    }
    match read(text, MOST_DECK_BYTES / 2) {
        Ok(deck) => deck.iter().flat_map(|word| word.to_le_bytes()).collect(),
        Err(Refused::Text(_, place)) => format!("refused 10 {place}\n").into_bytes(),
        Err(refused) => format!("refused {}\n", refused.number()).into_bytes(),
    }
}

/// The text, or a line with the refusal; no deck stands for a missing file.
pub fn write_program(deck: Option<&[u8]>) -> Vec<u8> {
    let whole = deck.filter(|bytes| bytes.len() <= MOST_DECK_BYTES && bytes.len() % 2 == 0);
    let words = |bytes: &[u8]| {
        let pairs = bytes
            .chunks(2)
            .map(|pair| u16::from_le_bytes([pair[0], pair[1]]));
        pairs.collect::<Vec<u16>>()
    };
    match whole.map_or(Err(1), |bytes| write(&words(bytes), MOST_TEXT_BYTES)) {
        Ok(text) => text,
        Err(number) => format!("refused {number}\n").into_bytes(),
    }
}
