//! The whole comparison of an engine's call with this evaluator.

use super::judge::{judge, Engine, COMES_TO};
use super::{vectors, Column, Mean, MeanCase};
use crate::deck::NUMBER;
use crate::random::carries::{everywhere, goal};
use crate::random::case;
use crate::random::means::{mean_case, numbers};
use crate::terms::VARIABLE;
use crate::world::World;
use std::collections::BTreeMap;
use std::time::{Duration, Instant};

/// How often each of the things that a case can come to was reached.
pub type Reached = BTreeMap<&'static str, usize>;

pub struct Comparison<'a> {
    engine: &'a dyn Engine,
    pub reached: Reached,
    pub calls: usize,
}

/// A call that takes longer walks through the list again and again.
const MOST_TIME: Duration = Duration::from_secs(2);

const X: u16 = VARIABLE;
/// Symbols of the small decks: numbers 7, -35 and -32,768, a, f of one argument, p of one.
const SYMBOLS: [u16; 6] = [NUMBER, NUMBER, NUMBER, 0, 1, 257];
const VALUES: [u16; 6] = [7, 65_501, 32_768, 0, 0, 0];

impl<'a> Comparison<'a> {
    pub fn new(engine: &'a dyn Engine) -> Comparison<'a> {
        Comparison {
            engine,
            reached: Reached::new(),
            calls: 0,
        }
    }

    pub fn call(&mut self, case: &MeanCase) -> Result<(), String> {
        let labels = judge(self.engine, case).map_err(|what| told(case, &what))?;
        for label in labels {
            *self.reached.entry(label).or_default() += 1;
        }
        self.calls += 1;
        Ok(())
    }

    /// The cases with stated results. Both evaluators must give them.
    pub fn vectors(&mut self, text: &str) -> Result<usize, String> {
        let cases = vectors::parse(text)?;
        for (case, expected) in &cases {
            if vectors::result(case) != *expected {
                return Err(format!("the second evaluator differs on {}", case.name));
            }
            self.call(case)?;
        }
        Ok(cases.len())
    }

    /// A list made by hand, at times damaged; and each column of a run's answers.
    pub fn random(&mut self, seed: u64) -> Result<(), String> {
        self.call(&mean_case(seed))?;
        let run = case(seed);
        let Ok(outcome) = run.run() else {
            return Ok(());
        };
        let variables = run.query.iter().filter(|cell| **cell >= VARIABLE);
        let terms = variables.max().map_or(0, |last| (last - VARIABLE) as u64 + 1);
        for column in 0..=terms.min(8) {
            self.call(&MeanCase {
                name: format!("{}, column {column}", run.name),
                deck: run.deck.clone(),
                list: outcome.answer_list(),
                asked: Column {
                    count: outcome.answers.len() as u64,
                    terms,
                    column,
                },
            })?;
        }
        Ok(())
    }

    /// Small lists: every word of the list, every word of the deck and every number otherwise.
    pub fn damaged(&mut self) -> Result<(), String> {
        for case in small() {
            self.call(&case)?;
            for other in everywhere(&case.goals(), SYMBOLS.len() as u16) {
                let (name, list) = (other.name, other.store);
                self.call(&MeanCase { name, list, ..case.clone() })?;
            }
            for other in numbers(&case) {
                self.call(&other)?;
            }
            for length in 0..case.list.len() {
                let list = case.list[..length].to_vec();
                self.call(&MeanCase { list, ..case.clone() })?;
            }
            self.damaged_deck(&case)?;
        }
        Ok(())
    }

    fn damaged_deck(&mut self, case: &MeanCase) -> Result<(), String> {
        for at in 0..case.deck.len() {
            let word = case.deck[at];
            let bits = (0..16).map(|bit| word ^ (1 << bit));
            let others = [word.wrapping_add(1), word.wrapping_sub(1), 0, 7, 512, 65_501, 65_535];
            for other in bits.chain(others) {
                let mut next = case.clone();
                next.deck[at] = other;
                self.call(&next)?;
            }
        }
        Ok(())
    }

    /// Also what the engine takes for it.
    fn quick(&mut self, case: &MeanCase) -> Result<(), String> {
        let start = Instant::now();
        self.engine.mean(&case.deck, &case.list, case.asked, &mut Mean::default());
        let time = start.elapsed();
        if time > MOST_TIME {
            return Err(format!("{}: took {time:.1?}", case.name));
        }
        self.call(case)
    }

    /// The most answers and more; the greatest and the least sums and remainders; answers of 1,024 words.
    pub fn limits(&mut self) -> Result<(), String> {
        for entries in [[32_767, 32_767], [32_768, 32_768], [32_768, 32_767], [65_535, 0], [0, 65_535], [0, 1], [1, 0], [65_535, 32_768]] {
            for count in [1, 2, 3, 255, 256, 257, 65_534, 65_535, 65_536, 65_537] {
                self.quick(&many(entries, count, 0))?;
                self.call(&many(entries, count, 1))?;
            }
        }
        for words in [1_022, 1_023, 1_024, 1_025, 1_026, 4_095] {
            for first in [0, 3] {
                self.call(&long(words, first))?;
            }
        }
        Ok(())
    }
}

fn told(case: &MeanCase, what: &str) -> String {
    let text = vectors::print(case);
    let shown: String = text.chars().take(4_000).collect();
    format!("{shown}\n{what}")
}

fn deck() -> Vec<u16> {
    let world = World {
        symbols: SYMBOLS.to_vec(),
        values: Some(VALUES.to_vec()),
        ..World::default()
    };
    world.deck()
}

fn listed(name: &str, answers: &[&[u16]], terms: u64, column: u64) -> MeanCase {
    let list = answers.iter().flat_map(|cells| goal(0, cells.len(), cells));
    MeanCase {
        name: name.to_string(),
        deck: deck(),
        list: list.collect(),
        asked: Column {
            count: answers.len() as u64,
            terms,
            column,
        },
    }
}

fn small() -> Vec<MeanCase> {
    let mut cases = vec![
        listed("one number", &[&[1]], 1, 0),
        listed("numbers", &[&[0], &[1], &[2], &[1]], 1, 0),
        listed("the middle", &[&[X, 0, 4, X], &[3, 2, 4, 4, 1], &[X, 1, X + 1]], 3, 1),
        listed("the last", &[&[X, X, 1], &[4, X, X, 1]], 3, 2),
        listed("an entry that is no number", &[&[0, 0], &[0, 3], &[0, 1]], 2, 1),
        listed("a variable", &[&[X, 0], &[0, 1]], 2, 0),
    ];
    let mut first = cases[1].clone();
    let list = [&first.list[..], &[9, 9, 9]].concat();
    cases.push(MeanCase { list, ..first.clone() });
    first.deck = World { symbols: vec![0, 0, 0, 257], ..World::default() }.deck();
    cases.push(first);
    cases
}

/// So many answers: all of one value but the last, which is of another. Words after them, or none.
fn many(entries: [u16; 2], count: u64, after: usize) -> MeanCase {
    let mut world = World {
        symbols: vec![NUMBER, NUMBER],
        values: Some(vec![entries[0], entries[1]]),
        ..World::default()
    };
    if entries[0] == entries[1] {
        world.cut_symbol(1);
    }
    let last = world.symbols.len() as u16 - 1;
    let mut list = goal(0, 1, &[0]).repeat(count as usize - 1);
    list.extend(goal(0, 1, &[last]));
    list.extend(vec![3; after]);
    MeanCase {
        name: format!("{count} answers of {entries:?}"),
        deck: world.deck(),
        list,
        asked: Column { count, terms: 1, column: 0 },
    }
}

/// An answer of so many words between two others; its column holds the number 7, or a.
fn long(words: usize, first: u16) -> MeanCase {
    let deep = [vec![first], vec![4; words - 4], vec![3]].concat();
    let mut case = listed("long", &[&[0, 3], &[1, 3]], 2, 0);
    let end = goal(0, 2, &[0, 3]).len();
    let answer = [&[words as u16, words as u16 - 2], &deep[..]].concat();
    case.list.splice(end..end, answer);
    case.asked.count = 3;
    case
}

/// Adds up, and names what no case came to.
pub fn together(all: Vec<Reached>) -> Result<Reached, String> {
    let mut sum = Reached::new();
    for (label, number) in all.into_iter().flatten() {
        *sum.entry(label).or_default() += number;
    }
    let missing: Vec<&str> = COMES_TO.into_iter().filter(|label| !sum.contains_key(label)).collect();
    if missing.is_empty() {
        return Ok(sum);
    }
    Err(format!("not reached: {missing:?}"))
}
