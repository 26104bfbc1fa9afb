//! A deck in parts, and what is asked of it. Nothing here is checked.

use crate::deck::{HEADER, NUMBER};
use crate::terms::{NEGATED, VARIABLE};
use std::ops::Range;

#[derive(Clone, Debug, Default, PartialEq, Eq)]
pub struct World {
    pub symbols: Vec<u16>,
    /// The second word of each symbol, in format 2; what is missing is 0.
    pub values: Option<Vec<u16>>,
    pub clauses: Vec<Vec<u16>>,
    pub query: Vec<u16>,
}

impl World {
    /// 1, or 2 where symbols have a second word.
    pub fn format(&self) -> usize {
        1 + self.values.is_some() as usize
    }

    fn header(&self) -> [usize; HEADER] {
        let symbols = self.symbols.len();
        let clauses = self.clauses.len();
        let terms: usize = self.clauses.iter().map(Vec::len).sum();
        let clause_offset = HEADER + self.format() * symbols;
        let term_offset = clause_offset + clauses;
        [
            self.format(),
            symbols,
            HEADER,
            clauses,
            clause_offset,
            terms,
            term_offset,
            term_offset + terms,
        ]
    }

    /// How many words the deck has.
    pub fn words(&self) -> usize {
        self.header()[HEADER - 1]
    }

    fn symbol_words(&self) -> Vec<u16> {
        let Some(values) = &self.values else {
            return self.symbols.clone();
        };
        let seconds = values.iter().copied().chain(std::iter::repeat(0));
        let pairs = self.symbols.iter().zip(seconds);
        pairs.flat_map(|(word, second)| [*word, second]).collect()
    }

    /// The deck's words. Counts past 16 bits are cut off.
    pub fn deck(&self) -> Vec<u16> {
        let mut words: Vec<u16> = self.header().iter().map(|field| *field as u16).collect();
        words.extend(self.symbol_words());
        let mut start = 0;
        for clause in &self.clauses {
            words.push(start as u16);
            start += clause.len();
        }
        words.extend(self.clauses.concat());
        words
    }

    /// The parts of a deck, if its header and clause starts hang together.
    pub fn take_apart(deck: &[u16], query: &[u16]) -> Option<World> {
        let field = |at: usize| deck.get(at).map(|word| *word as usize);
        let (format, symbols, clauses) = (field(0)?, field(1)?, field(3)?);
        if !(1..=2).contains(&format) {
            return None;
        }
        let from = HEADER + format * symbols;
        let symbol_words = deck.get(HEADER..from)?;
        let starts = deck.get(from..from + clauses)?;
        let terms = deck.get(from + clauses..)?;
        let mut parts = Vec::new();
        for (at, start) in starts.iter().enumerate() {
            let end = starts.get(at + 1).map_or(terms.len(), |end| *end as usize);
            parts.push(terms.get(*start as usize..end)?.to_vec());
        }
        let each = symbol_words.chunks(format);
        let world = World {
            symbols: each.clone().map(|words| words[0]).collect(),
            values: (format == 2).then(|| each.map(|words| words[1]).collect()),
            clauses: parts,
            query: query.to_vec(),
        };
        (world.deck() == deck).then_some(world)
    }

    pub fn cut_symbol(&mut self, number: usize) {
        self.symbols.remove(number);
        if let Some(values) = self.values.as_mut().filter(|values| number < values.len()) {
            values.remove(number);
        }
    }

    /// The functors without arguments, numbers among them.
    pub fn constants(&self) -> Vec<u16> {
        self.of_kind(|word| word == 0 || word == NUMBER)
    }

    pub fn predicates(&self) -> Vec<u16> {
        self.of_kind(|word| (256..NUMBER).contains(&word))
    }

    /// The numbers of the symbols whose words are such.
    pub fn of_kind(&self, such: impl Fn(u16) -> bool) -> Vec<u16> {
        let all = 0..self.symbols.len() as u16;
        all.filter(|number| such(self.symbols[*number as usize])).collect()
    }

    pub fn arity(&self, cell: u16) -> usize {
        if cell >= VARIABLE {
            return 0;
        }
        let word = self.symbols.get((cell % NEGATED) as usize);
        word.map_or(0, |word| (word % 256) as usize)
    }

    /// The end of the term or literal that starts at a cell.
    pub fn end(&self, cells: &[u16], at: usize) -> usize {
        let mut end = at;
        let mut wanted = 1;
        while wanted > 0 && end < cells.len() {
            wanted += self.arity(cells[end]);
            wanted -= 1;
            end += 1;
        }
        end
    }

    /// The literals of a clause or query, as ranges of cells.
    pub fn pieces(&self, cells: &[u16]) -> Vec<Range<usize>> {
        let mut pieces = Vec::new();
        let mut at = 0;
        while at < cells.len() {
            let end = self.end(cells, at);
            pieces.push(at..end);
            at = end;
        }
        pieces
    }
}

/// Numbers the variables by first appearance.
pub fn renumber(cells: &mut [u16]) {
    let mut seen: Vec<u16> = Vec::new();
    for cell in cells.iter_mut().filter(|cell| **cell >= VARIABLE) {
        let number = seen.iter().position(|old| old == cell);
        let number = number.unwrap_or_else(|| {
            seen.push(*cell);
            seen.len() - 1
        });
        *cell = VARIABLE + number as u16;
    }
}
