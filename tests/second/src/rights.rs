//! Closed sites (request U9): refusals 15 and 16.

pub mod pairs;
pub mod slips;

use crate::cost::Slip;
use crate::deck::Deck;
use crate::evaluation::Start;
use crate::loose;
use crate::terms::Literal;

/// The two checks, of a member's list and of where a run starts from.
pub(crate) type Checks = fn(&Deck, &[u16], &Start) -> Result<(), u32>;

/// What a call goes by: all is right, or something has a slip.
#[derive(Clone, Copy)]
pub(crate) struct Rules {
    /// 13 and 14 of a fresh run; 13 of one that carries on.
    pub loose: loose::Checks,
    pub loose_clauses: fn(&Deck) -> Result<(), u32>,
    pub rights: Checks,
    pub slip: Slip,
}

impl Rules {
    pub const RIGHT: Rules = Rules {
        loose: loose::both,
        loose_clauses: loose::deck,
        rights: both,
        slip: Slip::None,
    };
}

pub(crate) fn both(deck: &Deck, bars: &[u16], start: &Start) -> Result<(), u32> {
    list(deck, bars)?;
    reach(deck, bars, start.literals())
}

/// A list that bars nothing.
pub fn no_bars(deck: &[u16]) -> Vec<u16> {
    vec![0; deck.get(1).map_or(0, |symbols| *symbols as usize)]
}

/// 15: the list has one word a symbol, 0 or 1, and 1 only for a predicate.
pub(crate) fn list(deck: &Deck, bars: &[u16]) -> Result<(), u32> {
    let mut words = deck.symbols.iter().zip(bars);
    let right = bars.len() == deck.symbols.len()
        && words.all(|(symbol, bar)| *bar <= u16::from(symbol.predicate));
    right.then_some(()).ok_or(15)
}

/// 16: a barred predicate is among the literals, or reached from them.
pub(crate) fn reach<'a>(
    deck: &Deck,
    bars: &[u16],
    mut literals: impl Iterator<Item = &'a Literal>,
) -> Result<(), u32> {
    let shut = leading(deck, bars);
    let right = !literals.any(|literal| shut[literal.atom.symbol as usize]);
    right.then_some(()).ok_or(16)
}

/// The symbols that lead to a barred one, found backwards from those: whose clauses have it in their bodies, and so on.
fn leading(deck: &Deck, bars: &[u16]) -> Vec<bool> {
    let mut namers = vec![Vec::new(); deck.symbols.len()];
    for clause in &deck.clauses {
        for literal in &clause.body {
            namers[literal.atom.symbol as usize].push(clause.head.symbol as usize);
        }
    }
    let barred = |symbol: &usize| bars.get(*symbol) == Some(&1);
    let mut todo: Vec<usize> = (0..deck.symbols.len()).filter(barred).collect();
    let mut leads = vec![false; deck.symbols.len()];
    while let Some(symbol) = todo.pop() {
        if !leads[symbol] {
            leads[symbol] = true;
            todo.extend(&namers[symbol]);
        }
    }
    leads
}

impl Start {
    /// Those of all goals, pending and parked.
    pub(crate) fn literals(&self) -> impl Iterator<Item = &Literal> {
        let parked = self.parked.iter().map(|(goal, _)| goal);
        let goals = self.pending.iter().chain(parked);
        goals.flat_map(|goal| &goal.literals)
    }
}
