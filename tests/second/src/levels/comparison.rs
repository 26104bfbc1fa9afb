//! The whole comparison of an engine's call with this evaluator.

use super::judge::{judge, Engine, LEVELS};
use super::shrink::small;
use super::vectors::parse;
use super::{LevelCase, NUMBERS};
use crate::random::levels::{largest, level_case, SHAPES};
use std::collections::BTreeMap;
use std::time::{Duration, Instant};

/// How often each of the things that a case can come to was reached.
pub type Reached = BTreeMap<&'static str, usize>;

pub struct Comparison<'a> {
    engine: &'a dyn Engine,
    pub reached: Reached,
}

/// A call that takes longer goes through the deck again for each predicate.
const MOST_TIME: Duration = Duration::from_secs(10);

impl<'a> Comparison<'a> {
    pub fn new(engine: &'a dyn Engine) -> Comparison<'a> {
        let reached = Reached::new();
        Comparison { engine, reached }
    }

    /// An error is the case, made small.
    pub fn case(&mut self, case: &LevelCase) -> Result<(), String> {
        match judge(self.engine, case) {
            Ok(label) => *self.reached.entry(label).or_default() += 1,
            Err(what) => return Err(small(self.engine, case, &what)),
        }
        Ok(())
    }

    /// The cases with stated results. Both evaluators must give them.
    pub fn vectors(&mut self, text: &str) -> Result<usize, String> {
        let cases = parse(text)?;
        for (case, expected) in &cases {
            if case.levels() != *expected {
                return Err(format!("the second evaluator differs on {}", case.name));
            }
            self.case(case)?;
        }
        Ok(cases.len())
    }

    pub fn random(&mut self, seed: u64) -> Result<(), String> {
        self.case(&level_case(seed))
    }

    /// The largest decks, quickly.
    pub fn limits(&mut self) -> Result<(), String> {
        for shape in 0..SHAPES {
            let (name, deck) = largest(shape);
            let (mut list, mut circular) = (vec![0; NUMBERS], 0);
            let start = Instant::now();
            self.engine.levels(&deck, &mut list, &mut circular);
            let time = start.elapsed();
            if time > MOST_TIME {
                return Err(format!("{name}: took {time:.1?}"));
            }
            self.case(&LevelCase { name, deck, room: NUMBERS })?;
        }
        Ok(())
    }
}

/// Adds up, and names what no case came to.
pub fn together(all: Vec<Reached>) -> Result<Reached, String> {
    let mut sum = Reached::new();
    for (label, number) in all.into_iter().flatten() {
        *sum.entry(label).or_default() += number;
    }
    let missing: Vec<&str> = LEVELS.into_iter().filter(|label| !sum.contains_key(label)).collect();
    if missing.is_empty() {
        return Ok(sum);
    }
    Err(format!("not reached: {missing:?}"))
}
