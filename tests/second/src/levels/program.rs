//! What the program over levels prints.

use super::levels;

const MOST_DECK_BYTES: usize = 32_768;

/// The words, low byte first: 0 and 0, or 1 and the predicate that is named, and the numbers; or a line with the refusal. No deck stands for a
/// missing file.
pub fn levels_program(deck: Option<&[u8]>) -> Vec<u8> {
    let whole = deck.filter(|bytes| bytes.len() <= MOST_DECK_BYTES && bytes.len() % 2 == 0);
    let words = |bytes: &[u8]| bytes.chunks(2).map(|pair| u16::from_le_bytes([pair[0], pair[1]])).collect::<Vec<u16>>();
    match whole.map_or(Err(1), |bytes| levels(&words(bytes))) {
        Ok(found) => {
            let named = [found.circular.is_some() as u16, found.circular.unwrap_or(0)];
            named.iter().chain(&found.numbers).flat_map(|word| word.to_le_bytes()).collect()
        }
        Err(number) => format!("refused {number}\n").into_bytes(),
    }
}
