//! The whole comparison of an engine's call with this evaluator.

use super::judge::{judge, over, Engine, COMES_TO};
use super::{vectors, PreviewCase, MOST_WORDS};
use crate::case::Case;
use crate::random::previews::preview_case;
use crate::rights::no_bars;
use crate::terms::{NEGATED, VARIABLE};
use crate::world::World;
use std::collections::BTreeMap;

/// How often each of the things that a case can come to was reached.
pub type Reached = BTreeMap<&'static str, usize>;

pub struct Comparison<'a> {
    engine: &'a dyn Engine,
    pub reached: Reached,
    pub calls: usize,
}

const X: u16 = VARIABLE;
/// Deck L: end of a, end of b; a is drawn; x is a lead if x is an end and not drawn.
const SYMBOLS: [u16; 5] = [0, 0, 257, 257, 257];
const END: u16 = 2;
const DRAWN: u16 = 3;
const LEAD: u16 = 4;

impl<'a> Comparison<'a> {
    pub fn new(engine: &'a dyn Engine) -> Comparison<'a> {
        Comparison {
            engine,
            reached: Reached::new(),
            calls: 0,
        }
    }

    pub fn call(&mut self, case: &PreviewCase) -> Result<(), String> {
        let labels = judge(self.engine, case).map_err(|what| told(case, &what))?;
        for label in labels {
            *self.reached.entry(label).or_default() += 1;
        }
        self.calls += 1;
        Ok(())
    }

    /// The cases with stated results. Both evaluators must give them.
    pub fn vectors(&mut self, text: &str) -> Result<usize, String> {
        let cases = vectors::parse(text)?;
        for (case, expected) in &cases {
            if vectors::result(case) != *expected {
                return Err(format!("the second evaluator differs on {}", case.run.name));
            }
            self.call(case)?;
        }
        Ok(cases.len())
    }

    pub fn random(&mut self, seed: u64) -> Result<(), String> {
        self.call(&preview_case(seed))
    }

    /// Deck L in both formats: every word of the deck, every cell of the clause and every size otherwise.
    pub fn damaged(&mut self) -> Result<(), String> {
        for case in small() {
            self.call(&case)?;
            for at in 0..case.run.deck.len() {
                for other in others(case.run.deck[at]) {
                    let mut deck = case.run.deck.clone();
                    deck[at] = other;
                    self.call(&over(&case, deck))?;
                }
            }
            for at in 0..case.clause.len() {
                for other in others(case.clause[at]) {
                    let mut next = case.clone();
                    next.clause[at] = other;
                    self.call(&next)?;
                }
                let clause = case.clause[..at].to_vec();
                self.call(&PreviewCase { clause, ..case.clone() })?;
            }
            self.sizes(&case)?;
            self.lists(&case)?;
        }
        Ok(())
    }

    fn sizes(&mut self, case: &PreviewCase) -> Result<(), String> {
        for (store, scratch) in [(1_023, 8_192), (1_024, 8_191), (1_023, 8_191), (65_535, 8_192), (65_536, 8_192)] {
            let run = Case { store_words: store, scratch_words: scratch, ..case.run.clone() };
            self.call(&PreviewCase { run, clause: case.clause.clone() })?;
        }
        for budget in 0..20 {
            let run = Case { budget, answer_words: budget as usize % 7, ..case.run.clone() };
            self.call(&PreviewCase { run, clause: case.clause.clone() })?;
        }
        Ok(())
    }

    fn lists(&mut self, case: &PreviewCase) -> Result<(), String> {
        for at in 0..case.run.bars.len() {
            let mut run = case.run.clone();
            run.bars[at] = 1;
            self.call(&PreviewCase { run, clause: case.clause.clone() })?;
        }
        Ok(())
    }

    /// Copies of about 16,384 words and clauses of about 256 cells; clauses of far too many; the 63rd to the 66th clause of a predicate.
    pub fn limits(&mut self) -> Result<(), String> {
        for length in [1, 2, 255, 256, 257, 300] {
            for words in MOST_WORDS - 2..=MOST_WORDS + 1 {
                self.call(&at_the_limit(length, words))?;
            }
        }
        for cells in [16_383, 16_384, 32_768, 65_535, 65_536, 65_537, 70_000] {
            let mut case = deck_l("far too long", 1, &[], &[LEAD, X]);
            case.clause = vec![DRAWN; cells];
            self.call(&case)?;
            case.run.deck[7] += 1;
            self.call(&case)?;
        }
        for clauses in 62..67 {
            for query in [[0, 1], [0, 17], [0, X]] {
                self.call(&rows(clauses, &query))?;
            }
        }
        Ok(())
    }
}

fn told(case: &PreviewCase, what: &str) -> String {
    let text = vectors::print(case);
    let shown: String = text.chars().take(4_000).collect();
    format!("{shown}\n{what}")
}

fn others(word: u16) -> impl Iterator<Item = u16> {
    let bits = (0..16).map(move |bit| word ^ (1 << bit));
    let more = [word.wrapping_add(1), word.wrapping_sub(1), 0, DRAWN, LEAD, NEGATED + DRAWN, X, X + 1];
    bits.chain(more)
}

fn of(name: &str, world: World, clause: &[u16], query: &[u16]) -> PreviewCase {
    let deck = world.deck();
    let run = Case {
        name: name.to_string(),
        bars: no_bars(&deck),
        deck,
        query: query.to_vec(),
        budget: 1_000,
        answer_words: 512,
        store_words: 1_024,
        scratch_words: 8_192,
    };
    PreviewCase { run, clause: clause.to_vec() }
}

fn deck_l(name: &str, format: usize, clause: &[u16], query: &[u16]) -> PreviewCase {
    let world = World {
        symbols: SYMBOLS.to_vec(),
        values: (format == 2).then(Vec::new),
        clauses: vec![vec![END, 0], vec![END, 1], vec![DRAWN, 0], vec![LEAD, X, END, X, NEGATED + DRAWN, X]],
        ..World::default()
    };
    of(name, world, clause, query)
}

fn small() -> Vec<PreviewCase> {
    let lead: &[u16] = &[LEAD, X];
    let tries: [(&str, &[u16], &[u16]); 8] = [
        ("would drawing b close the lead?", &[DRAWN, 1], lead),
        ("another lead", &[LEAD, 0], lead),
        ("an end again", &[END, 1], lead),
        ("a rule", &[DRAWN, X, LEAD, X], lead),
        ("a rule with a not", &[END, X, DRAWN, X, NEGATED + LEAD, X], &[END, X]),
        ("the ends", &[END, 0, DRAWN, 1], &[END, X, NEGATED + DRAWN, X]),
        ("no query", &[DRAWN, 1], &[]),
        ("a bad query", &[DRAWN, 1], &[0]),
    ];
    let both = tries.iter().flat_map(|(name, clause, query)| [1, 2].map(|format| deck_l(name, format, clause, query)));
    let empty = World { symbols: vec![256, 257], ..World::default() };
    both.chain([of("a first clause", empty, &[0], &[0])]).collect()
}

/// A clause of so many cells over a deck with which the copy has so many words: facts p, then as many symbols as it takes.
fn at_the_limit(length: usize, words: usize) -> PreviewCase {
    let facts = 7_000;
    let fixed = 8 + 2 * facts + 1 + length;
    let world = World {
        symbols: [vec![256], vec![0; words - fixed - 1]].concat(),
        clauses: vec![vec![0]; facts],
        ..World::default()
    };
    let mut case = of("at the limit", world, &vec![0; length], &[0]);
    case.run.budget = 20;
    case
}

/// So many facts p(c) before the clause, which is one more.
fn rows(clauses: usize, query: &[u16]) -> PreviewCase {
    let world = World {
        symbols: [vec![257], vec![0; 40]].concat(),
        clauses: (0..clauses).map(|at| vec![0, 1 + at as u16 % 40]).collect(),
        ..World::default()
    };
    of("rows", world, &[0, 1], query)
}

/// Adds up, and names what no case came to.
pub fn together(all: Vec<Reached>) -> Result<Reached, String> {
    let mut sum = Reached::new();
    for (label, number) in all.into_iter().flatten() {
        *sum.entry(label).or_default() += number;
    }
    let missing: Vec<&str> = COMES_TO.into_iter().filter(|label| !sum.contains_key(label)).collect();
    if missing.is_empty() {
        return Ok(sum);
    }
    Err(format!("not reached: {missing:?}"))
}
