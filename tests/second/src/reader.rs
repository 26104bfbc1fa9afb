//! From cells to trees, with the check of the variables' numbering.

use crate::terms::{Applied, Literal, Term, NEGATED, VARIABLE};

#[derive(Clone, Copy, Debug)]
pub struct Symbol {
    pub arity: usize,
    pub predicate: bool,
    /// Of a number of format 2; in terms it is a functor like any other.
    pub value: Option<i16>,
}

enum Cell {
    Symbol(u16),
    Negated(u16),
    Variable(usize),
}

const LAST_VARIABLE: u16 = 1_023;

pub struct Reader<'a> {
    symbols: &'a [Symbol],
    cells: &'a [u16],
    at: usize,
    seen: usize,
}

impl<'a> Reader<'a> {
    pub fn new(symbols: &'a [Symbol], cells: &'a [u16]) -> Reader<'a> {
        Reader {
            symbols,
            cells,
            at: 0,
            seen: 0,
        }
    }

    /// Literals up to the last cell.
    pub fn literals(&mut self) -> Option<Vec<Literal>> {
        let mut literals = Vec::new();
        while self.at < self.cells.len() {
            literals.push(self.literal()?);
        }
        Some(literals)
    }

    /// So many terms, which end at the cell `at`.
    pub fn terms(&mut self, number: u64, at: usize) -> Option<Vec<Term>> {
        let terms: Option<Vec<Term>> = (0..number).map(|_| self.term()).collect();
        terms.filter(|_| self.at == at)
    }

    /// Number of variables seen so far.
    pub fn variables(&self) -> usize {
        self.seen
    }

    pub fn literal(&mut self) -> Option<Literal> {
        let (negated, number) = match self.cell()? {
            Cell::Symbol(number) => (false, number),
            Cell::Negated(number) => (true, number),
            Cell::Variable(_) => return None,
        };
        let symbol = self.symbols[number as usize];
        if !symbol.predicate {
            return None;
        }
        let atom = Applied::new(number, self.arguments(symbol.arity)?);
        Some(Literal { negated, atom })
    }

    fn term(&mut self) -> Option<Term> {
        match self.cell()? {
            Cell::Variable(number) => self.variable(number),
            Cell::Negated(_) => None,
            Cell::Symbol(number) => {
                let symbol = self.symbols[number as usize];
                if symbol.predicate {
                    return None;
                }
                let arguments = self.arguments(symbol.arity)?;
                Some(Term::Applied(Applied::new(number, arguments)))
            }
        }
    }

    fn arguments(&mut self, arity: usize) -> Option<Vec<Term>> {
        (0..arity).map(|_| self.term()).collect()
    }

    /// A variable was seen before or is the next one.
    fn variable(&mut self, number: usize) -> Option<Term> {
        if number > self.seen {
            return None;
        }
        if number == self.seen {
            self.seen += 1;
        }
        Some(Term::Variable(number))
    }

    fn cell(&mut self) -> Option<Cell> {
        let word = *self.cells.get(self.at)?;
        self.at += 1;
        if word >= VARIABLE {
            let number = word - VARIABLE;
            return (number <= LAST_VARIABLE).then_some(Cell::Variable(number as usize));
        }
        let number = word % NEGATED;
        let symbol = self.symbols.get(number as usize)?;
        if word < NEGATED {
            Some(Cell::Symbol(number))
        } else {
            symbol.predicate.then_some(Cell::Negated(number))
        }
    }
}
