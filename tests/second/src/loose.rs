//! Loose variables (request U5): refusals 13 and 14.

pub mod slips;

use crate::deck::{Clause, Deck};
use crate::query::Query;
use crate::terms::{Applied, Literal, Term};

/// The two checks, as the calls with a query make them.
pub(crate) type Checks = fn(&Deck, &Query) -> Result<(), u32>;

pub(crate) fn both(deck: &Deck, query: &Query) -> Result<(), u32> {
    self::deck(deck)?;
    self::query(query)
}

/// 13: a clause has a variable that is in no positive literal of its body.
pub fn deck(deck: &Deck) -> Result<(), u32> {
    refused_unless(deck.clauses.iter().all(Clause::is_tight), 13)
}

/// 14: the query has a variable that is in none of its positive literals.
pub fn query(query: &Query) -> Result<(), u32> {
    refused_unless(loose(query.variables, &query.literals).is_empty(), 14)
}

fn refused_unless(right: bool, number: u32) -> Result<(), u32> {
    right.then_some(()).ok_or(number)
}

impl Clause {
    pub fn is_tight(&self) -> bool {
        loose(self.variables, &self.body).is_empty()
    }
}

/// Of the variables, which are numbered without gaps, those that are in no positive literal.
fn loose<'a>(variables: usize, literals: impl IntoIterator<Item = &'a Literal>) -> Vec<usize> {
    let mut held = vec![false; variables];
    for literal in literals.into_iter().filter(|literal| !literal.negated) {
        hold(&literal.atom, &mut held);
    }
    (0..variables).filter(|number| !held[*number]).collect()
}

fn hold(applied: &Applied, held: &mut [bool]) {
    for argument in &applied.arguments {
        match argument {
            Term::Variable(number) => held[*number] = true,
            Term::Applied(inner) => hold(inner, held),
        }
    }
}
