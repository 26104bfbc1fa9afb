//! Terms by their places in the list.

use crate::reader::Symbol;

/// `ways[m][k]`: how many rows of m cells are k variable-free terms.
pub struct Counting {
    /// For each symbol the number of its arguments, if it is a functor.
    arities: Vec<Option<usize>>,
    ways: Vec<Vec<u128>>,
}

impl Counting {
    pub fn new(symbols: &[Symbol], cells: usize) -> Counting {
        let arities: Vec<_> = symbols.iter().map(|symbol| (!symbol.predicate).then_some(symbol.arity)).collect();
        let mut counting = Counting { arities, ways: Vec::new() };
        for m in 0..=cells {
            let row = (0..=cells).map(|k| counting.row(m, k)).collect();
            counting.ways.push(row);
        }
        counting
    }

    fn row(&self, m: usize, k: usize) -> u128 {
        match (m, k) {
            (0, 0) => 1,
            (0, _) | (_, 0) => 0,
            _ => (0..self.arities.len()).map(|first| self.with(first, m, k)).sum(),
        }
    }

    /// Rows of m cells that are k terms and begin with this symbol.
    fn with(&self, first: usize, m: usize, k: usize) -> u128 {
        let Some(arity) = self.arities[first] else {
            return 0;
        };
        self.ways[m - 1].get(arity + k - 1).copied().unwrap_or(0)
    }

    fn size(&self, cells: usize) -> u128 {
        self.ways[cells].get(1).copied().unwrap_or(0)
    }

    /// The number of terms.
    pub fn number(&self) -> u128 {
        (1..self.ways.len()).map(|cells| self.size(cells)).sum()
    }

    /// The place of a term, if it is of the list.
    pub fn place(&self, term: &[u16]) -> Option<u128> {
        if term.len() >= self.ways.len() {
            return None;
        }
        let mut place: u128 = (1..term.len()).map(|cells| self.size(cells)).sum();
        let mut open = 1;
        for (at, cell) in term.iter().enumerate() {
            let (first, m) = (*cell as usize, term.len() - at);
            if open == 0 || first >= self.arities.len() {
                return None;
            }
            let arity = self.arities[first]?;
            place += (0..first).map(|other| self.with(other, m, open)).sum::<u128>();
            open = open - 1 + arity;
        }
        (open == 0).then_some(place)
    }

    /// The term at a place below `number`.
    pub fn term(&self, place: u128) -> Vec<u16> {
        let mut left = place;
        let mut cells = 1;
        while left >= self.size(cells) {
            left -= self.size(cells);
            cells += 1;
        }
        let (mut term, mut open) = (Vec::new(), 1);
        for m in (1..=cells).rev() {
            let mut first = 0;
            while left >= self.with(first, m, open) {
                left -= self.with(first, m, open);
                first += 1;
            }
            term.push(first as u16);
            open = open - 1 + self.arities[first].expect("a functor");
        }
        term
    }
}
