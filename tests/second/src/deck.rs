//! Opening a deck: refusals 1 to 5.

pub mod slips;

use crate::reader::{Reader, Symbol};
use crate::terms::{Applied, Literal};
use std::collections::HashSet;
use std::ops::Range;
use std::rc::Rc;

pub struct Clause {
    pub head: Rc<Applied>,
    pub body: Vec<Literal>,
    pub variables: usize,
}

pub struct Deck {
    /// 1, or 2: each symbol takes two words.
    pub format: u16,
    pub symbols: Vec<Symbol>,
    pub clauses: Vec<Clause>,
    /// For each symbol, its clauses in deck order.
    pub about: Vec<Vec<usize>>,
}

/// The parts of a deck whose header is right.
struct Parts<'a> {
    format: u16,
    symbols: &'a [u16],
    starts: &'a [u16],
    terms: &'a [u16],
}

pub const HEADER: usize = 8;
const MOST_SYMBOLS: usize = 4_096;
const MOST_WORDS: usize = 16_384;
const MOST_CLAUSE_CELLS: usize = 256;
const MOST_ARITY: u16 = 15;
const PREDICATE: u16 = 256;
/// A number of format 2: its value is in the second word.
pub const NUMBER: u16 = 512;

pub fn open(words: &[u16]) -> Result<Deck, u32> {
    let parts = header(words).ok_or(1u32)?;
    let symbols = read_symbols(parts.format, parts.symbols).ok_or(2u32)?;
    if !starts_in_order(parts.starts, parts.terms.len()) {
        return Err(3);
    }
    let ranges = clause_ranges(parts.starts, parts.terms.len());
    if ranges.iter().any(|range| range.len() > MOST_CLAUSE_CELLS) {
        return Err(4);
    }
    let clauses = ranges
        .into_iter()
        .map(|range| read_clause(&symbols, &parts.terms[range]))
        .collect::<Option<Vec<_>>>()
        .ok_or(5u32)?;
    let about = clauses_about(symbols.len(), &clauses);
    Ok(Deck {
        format: parts.format,
        symbols,
        clauses,
        about,
    })
}

fn header(words: &[u16]) -> Option<Parts<'_>> {
    if words.len() < HEADER || words.len() > MOST_WORDS {
        return None;
    }
    let field = |at: usize| words[at] as usize;
    let (format, symbols, clauses, terms) = (field(0), field(1), field(3), field(5));
    let clause_offset = HEADER + format * symbols;
    let term_offset = clause_offset + clauses;
    let right = (1..=2).contains(&format)
        && (1..=MOST_SYMBOLS).contains(&symbols)
        && field(2) == HEADER
        && field(4) == clause_offset
        && field(6) == term_offset
        && field(7) == term_offset + terms
        && field(7) == words.len();
    right.then(|| Parts {
        format: words[0],
        symbols: &words[HEADER..clause_offset],
        starts: &words[clause_offset..term_offset],
        terms: &words[term_offset..],
    })
}

fn read_symbols(format: u16, words: &[u16]) -> Option<Vec<Symbol>> {
    let each = words.chunks(format as usize).map(read_symbol);
    let symbols: Vec<Symbol> = each.collect::<Option<_>>()?;
    let mut values = HashSet::new();
    let mut numbers = symbols.iter().filter_map(|symbol| symbol.value);
    numbers.all(|value| values.insert(value)).then_some(symbols)
}

/// A symbol's word, in format 2 its two words.
fn read_symbol(words: &[u16]) -> Option<Symbol> {
    match words {
        [NUMBER, value] => Some(Symbol {
            arity: 0,
            predicate: false,
            value: Some(*value as i16),
        }),
        [word] | [word, 0] => read_kind(*word),
        _ => None,
    }
}

fn read_kind(word: u16) -> Option<Symbol> {
    let predicate = word >= PREDICATE;
    let arity = if predicate { word - PREDICATE } else { word };
    (arity <= MOST_ARITY).then_some(Symbol {
        arity: arity as usize,
        predicate,
        value: None,
    })
}

fn starts_in_order(starts: &[u16], terms: usize) -> bool {
    match starts {
        [] => terms == 0,
        [first, ..] => {
            *first == 0
                && starts.windows(2).all(|pair| pair[0] < pair[1])
                && starts.iter().all(|start| (*start as usize) < terms)
        }
    }
}

fn clause_ranges(starts: &[u16], terms: usize) -> Vec<Range<usize>> {
    (0..starts.len())
        .map(|at| {
            let end = starts.get(at + 1).map_or(terms, |next| *next as usize);
            starts[at] as usize..end
        })
        .collect()
}

fn read_clause(symbols: &[Symbol], cells: &[u16]) -> Option<Clause> {
    let mut reader = Reader::new(symbols, cells);
    let head = reader.literal()?;
    if head.negated {
        return None;
    }
    let body = reader.literals()?;
    Some(Clause {
        head: head.atom,
        body,
        variables: reader.variables(),
    })
}

fn clauses_about(symbols: usize, clauses: &[Clause]) -> Vec<Vec<usize>> {
    let mut about = vec![Vec::new(); symbols];
    for (number, clause) in clauses.iter().enumerate() {
        about[clause.head.symbol as usize].push(number);
    }
    about
}
