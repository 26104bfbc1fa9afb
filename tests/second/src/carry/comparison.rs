//! The whole comparison of an engine's continued runs with this evaluator.

use super::formats;
use super::judge::{judge, Engine, WANTED};
use super::shrink::small;
use super::vectors::{parse, result};
use super::{CarryCase, Given};
use crate::judge::{judge_run, Left, Lent, Report};
use crate::random::members::Members;
use crate::random::carries::{
    answer_words, budget, carry_case, everywhere, fill, limits, lists, numbers, shapes, store_words,
};
use crate::case::Case;
use crate::random::{case, Dice};
use crate::terms::VARIABLE;
use std::collections::BTreeMap;
use std::time::{Duration, Instant};

/// How often each of the things that a case can come to was reached.
pub type Reached = BTreeMap<&'static str, usize>;

pub struct Comparison<'a> {
    engine: &'a dyn Engine,
    pub reached: Reached,
    pub calls: usize,
}

/// A run is continued so often.
const MOST_CONTINUED: usize = 5;
/// A call without steps that takes longer moves the goals again and again.
const MOST_TIME: Duration = Duration::from_millis(400);

impl<'a> Comparison<'a> {
    pub fn new(engine: &'a dyn Engine) -> Comparison<'a> {
        Comparison {
            engine,
            reached: Reached::new(),
            calls: 0,
        }
    }

    /// What the case leaves. An error is the case, made small.
    pub fn hold(&mut self, case: &CarryCase) -> Result<Left, String> {
        let (labels, left) =
            judge(self.engine, case).map_err(|what| small(self.engine, case, &what))?;
        for label in labels {
            *self.reached.entry(label).or_default() += 1;
        }
        self.calls += 1;
        Ok(left)
    }

    /// The cases with stated results. Both evaluators must give them.
    pub fn vectors(&mut self, text: &str) -> Result<(), String> {
        for (case, expected) in parse(text)? {
            if result(&case) != expected {
                return Err(format!("the second evaluator differs on {}", case.name));
            }
            self.hold(&case)?;
        }
        Ok(())
    }

    /// Goals filled in by hand, at times damaged; and a run, cut and continued.
    pub fn random(&mut self, seed: u64) -> Result<(), String> {
        self.hold(&carry_case(seed))?;
        self.continued(seed)
    }

    /// A run, cut somewhere, and its continuations with other budgets, answer lists and stores, each from the store as the engine left it.
    fn continued(&mut self, seed: u64) -> Result<(), String> {
        let mut dice = Dice::new(!seed);
        let mut first = case(seed);
        if dice.chance(3, 4) {
            first.budget = first.budget.min(budget(&mut dice));
        }
        let query = first.query.iter().filter(|cell| **cell >= VARIABLE);
        let terms = query.max().map_or(0, |last| (last - VARIABLE) as u64 + 1);
        let left =
            judge_run(self.engine, &first).map_err(|what| format!("{}: {what}", first.name))?;
        let mut members = Members::new(seed);
        let Some(mut left) = left else {
            return self.refused(first, &mut dice);
        };
        for number in 1..=MOST_CONTINUED {
            let next = next(&mut dice, &first, &left, terms);
            let next = CarryCase {
                name: format!("{}, continued {number}", first.name),
                bars: members.next(&next),
                ..next
            };
            let Some(then) = self.hold(&next)? else {
                return Ok(());
            };
            if number == MOST_CONTINUED {
                *self.reached.entry("a fifth continuation").or_default() += 1;
            }
            left = (then.0, then.1);
            if left.0.pending.is_empty() && dice.chance(3, 4) {
                return Ok(());
            }
        }
        Ok(())
    }

    /// A deck that takes no query takes no goals either, unless the query was wrong.
    fn refused(&mut self, first: Case, dice: &mut Dice) -> Result<(), String> {
        let given = Given {
            pending: dice.below(2) as u64,
            parked: 0,
            terms: 0,
        };
        let case = CarryCase {
            name: "a deck refused".to_string(),
            deck: first.deck,
            store: [2, 0].repeat(*dice.pick(&[512, 512, 300])),
            given,
            bars: first.bars,
            budget: budget(dice),
            answer_words: answer_words(dice),
            scratch_words: *dice.pick(&[8_192, 8_191]),
        };
        self.hold(&case).map(|_| ())
    }

    /// Small decks with goals: every word and every number otherwise.
    pub fn damaged(&mut self) -> Result<(), String> {
        for shape in shapes() {
            let case = shape.case(150, 1_024);
            self.hold(&case)?;
            for other in everywhere(&case, shape.world.symbols.len() as u16) {
                self.hold(&other)?;
            }
            for other in numbers(&case) {
                self.hold(&other)?;
            }
        }
        self.lists()
    }

    /// Small decks with goals: every word of the member's list otherwise.
    pub fn lists(&mut self) -> Result<(), String> {
        let cases = shapes().into_iter().map(|shape| shape.case(150, 1_024));
        let mut others = cases.flat_map(|case| lists(&case));
        others.try_for_each(|case| self.hold(&case).map(|_| ()))
    }

    pub fn limits(&mut self) -> Result<(), String> {
        for case in limits() {
            if case.budget == 0 {
                self.quick(&case)?;
            }
            self.hold(&case)?;
        }
        Ok(())
    }

    /// The goals are looked at and left: that takes no time. The best of three.
    fn quick(&self, case: &CarryCase) -> Result<(), String> {
        let time = (0..3).map(|_| self.timed(case)).min();
        match time.filter(|time| *time > MOST_TIME) {
            None => Ok(()),
            Some(time) => {
                let (goals, words) = (case.lengths().len(), case.words());
                Err(format!("{goals} goals of {words} words took {time:.1?}"))
            }
        }
    }

    fn timed(&self, case: &CarryCase) -> Duration {
        let (mut answers, mut store) = (vec![0; case.answer_words], case.store.clone());
        let mut scratch = vec![0; case.scratch_words];
        let lent = Lent {
            answers: &mut answers,
            store: &mut store,
            scratch: &mut scratch,
        };
        let mut report = Report::default();
        let start = Instant::now();
        self.engine
            .carry_on(&case.deck, case.given, &case.bars, case.budget, lent, &mut report);
        start.elapsed()
    }
}

/// The goals left, in a store of another length: longer, just long enough, or at times too short.
fn next(dice: &mut Dice, first: &Case, left: &(crate::Outcome, Vec<u16>), terms: u64) -> CarryCase {
    let (outcome, words) = left;
    let goals = outcome.store_start().len();
    let mut store = words.clone();
    if dice.chance(1, 2) {
        let length = store_words(dice, goals);
        store.truncate(goals.max(store.len().min(length)));
        fill(dice, &mut store, length);
    }
    if goals > 0 && dice.chance(1, 60) {
        store.truncate(goals - 1);
        store.resize(store.len().max(1_024), 0);
    }
    CarryCase {
        name: String::new(),
        deck: first.deck.clone(),
        store,
        given: Given {
            pending: outcome.pending.len() as u64,
            parked: outcome.parked.len() as u64,
            terms,
        },
        bars: first.bars.clone(),
        budget: budget(dice),
        answer_words: answer_words(dice),
        scratch_words: 8_192,
    }
}

/// Adds up, and names what no case came to.
pub fn together(all: Vec<Reached>) -> Result<Reached, String> {
    let mut sum = Reached::new();
    for (label, number) in all.into_iter().flatten() {
        *sum.entry(label).or_default() += number;
    }
    let wanted = WANTED.iter().chain(&formats::WANTED);
    let missing = wanted.filter(|label| !sum.contains_key(*label));
    let missing: Vec<&&str> = missing.collect();
    if missing.is_empty() {
        return Ok(sum);
    }
    Err(format!("not reached: {missing:?}"))
}
