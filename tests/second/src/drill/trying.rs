//! Terms by trying every row of cells.

use crate::reader::Symbol;

/// All terms of at most so many cells, shorter first, then by their cells as numbers.
pub fn all(symbols: &[Symbol], cells: usize) -> Vec<Vec<u16>> {
    let mut terms = Vec::new();
    for length in 1..=cells {
        let mut row = vec![0u16; length];
        loop {
            if is_term(symbols, &row) {
                terms.push(row.clone());
            }
            if !count_up(&mut row, symbols.len()) {
                break;
            }
        }
    }
    terms
}

/// The next row of the same length; false after the last.
fn count_up(row: &mut [u16], symbols: usize) -> bool {
    for cell in row.iter_mut().rev() {
        *cell += 1;
        if (*cell as usize) < symbols {
            return true;
        }
        *cell = 0;
    }
    false
}

/// Whether a row is one term without variables: read as a tree, with nothing left.
pub fn is_term(symbols: &[Symbol], row: &[u16]) -> bool {
    rest(symbols, row) == Some(&[])
}

fn rest<'a>(symbols: &[Symbol], row: &'a [u16]) -> Option<&'a [u16]> {
    let (first, mut others) = row.split_first()?;
    let symbol = symbols.get(*first as usize)?;
    if symbol.predicate {
        return None;
    }
    for _ in 0..symbol.arity {
        others = rest(symbols, others)?;
    }
    Some(others)
}
