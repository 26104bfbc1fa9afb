//! The whole comparison of an engine's presses with this evaluator.

use super::judge::{judge, Engine, Left, WANTED};
use super::vectors::{parse, print, result, Expected};
use super::{PressCase, Record};
use crate::carry::judge::judge as judge_run_on;
use crate::carry::CarryCase;
use crate::judge::judge_run;
use crate::random::carries::{answer_words, budget, carry_case, fill, store_words};
use crate::random::members::Members;
use crate::random::{case, Dice};
use crate::rights::pairs::{other_carried, Differ};
use crate::terms::VARIABLE;
use std::collections::BTreeMap;

/// How often each of the things that a case can come to was reached.
pub type Reached = BTreeMap<&'static str, usize>;

pub struct Comparison<'a> {
    engine: &'a dyn Engine,
    pub reached: Reached,
    pub calls: usize,
}

/// A list has so many presses.
const MOST_PRESSES: usize = 40;

impl<'a> Comparison<'a> {
    pub fn new(engine: &'a dyn Engine) -> Comparison<'a> {
        Comparison {
            engine,
            reached: Reached::new(),
            calls: 0,
        }
    }

    /// What the case leaves. An error is told with the case.
    pub fn hold(&mut self, case: &PressCase) -> Result<Left, String> {
        let (labels, left) = judge(self.engine, case)
            .map_err(|what| format!("{}: {what}\n{}", case.name, print(case, &result(case))))?;
        for label in labels {
            self.reach(label);
        }
        self.calls += 1;
        Ok(left)
    }

    fn reach(&mut self, label: &'static str) {
        *self.reached.entry(label).or_default() += 1;
    }

    /// The cases with stated results. Both evaluators must give them.
    pub fn vectors(&mut self, text: &str) -> Result<(), String> {
        for (case, expected) in parse(text)? {
            if result(&case) != expected {
                return Err(format!("the second evaluator differs on {}", case.name));
            }
            self.hold(&case)?;
        }
        Ok(())
    }

    /// A press on goals filled in by hand, at times damaged; the same over a deck that the member can't tell apart; and a list of presses from a fresh query.
    pub fn random(&mut self, seed: u64) -> Result<(), String> {
        let mut dice = Dice::new(seed ^ 0x9e55);
        self.hold(&filled(&mut dice, carry_case(seed)))?;
        self.pair(seed, &mut Dice::new(seed ^ 0x9a15))?;
        self.list(seed, &mut dice)
    }

    /// Two decks that differ only behind barred predicates and where the goals don't lead: a press comes to the same on both.
    fn pair(&mut self, seed: u64, dice: &mut Dice) -> Result<(), String> {
        let case = carry_case(seed);
        let Some(deck) = other_carried(dice, &case, Differ::Behind) else {
            return Ok(());
        };
        let one = filled(dice, case);
        let other = PressCase {
            deck,
            ..one.clone()
        };
        self.hold(&one)?;
        self.hold(&other)?;
        if result(&one) != result(&other) {
            let name = &one.name;
            return Err(format!("{name}: a press tells two decks apart\n{}", print(&other, &result(&other))));
        }
        self.reach(match result(&one) {
            Expected::Refused(16) => "16 from two decks",
            Expected::Refused(_) => "a refusal from two decks",
            Expected::Pressed { .. } => "pressed on two decks",
        });
        Ok(())
    }

    /// From a run of budget 0, whose result is the first record. Each press has a budget, an answer list and a store of its own, and the store as the
    /// engine left it. At times a run goes on in between.
    fn list(&mut self, seed: u64, dice: &mut Dice) -> Result<(), String> {
        let mut first = case(seed);
        first.budget = 0;
        let query = first.query.iter().filter(|cell| **cell >= VARIABLE);
        let terms = query.max().map_or(0, |last| (last - VARIABLE) as u64 + 1);
        let left = judge_run(self.engine, &first).map_err(|what| format!("{}: {what}", first.name))?;
        let Some((outcome, mut store)) = left else {
            return Ok(());
        };
        let mut record = near_the_greatest(dice, Record::default().after(&outcome));
        let mut goals = outcome.store_start().len();
        let mut members = Members::new(seed);
        for number in 1..=MOST_PRESSES {
            resize(dice, &mut store, goals);
            let given = CarryCase {
                name: format!("{}, pressed {number}", first.name),
                deck: first.deck.clone(),
                store: store.clone(),
                given: record.given(terms),
                bars: first.bars.clone(),
                budget: little(dice),
                answer_words: answer_words(dice),
                scratch_words: 8_192,
            };
            let given = CarryCase {
                bars: members.next(&given),
                ..given
            };
            // Another member's refusal touches nothing.
            let Some((then, next)) = self.next(dice, given, record)? else {
                continue;
            };
            (record, store) = (then, next.1);
            goals = next.0;
            if record.pending == 0 && dice.chance(1, 2) {
                self.reach("a list of presses that ends");
                return Ok(());
            }
        }
        Ok(())
    }

    /// A press, or at times a continued run, which adds nothing to a record here. Gives the record, the words of the goals, and the store.
    fn next(&mut self, dice: &mut Dice, given: CarryCase, record: Record) -> Result<Option<(Record, (usize, Vec<u16>))>, String> {
        if dice.chance(1, 12) {
            let (_, left) = judge_run_on(self.engine, &given).map_err(|what| format!("{}: {what}", given.name))?;
            return Ok(left.map(|(outcome, store)| {
                let counts = Record::default().after(&outcome);
                let record = Record {
                    pending: counts.pending,
                    parked: counts.parked,
                    ..record
                };
                (record, (outcome.store_start().len(), store))
            }));
        }
        let left = self.hold(&of(given, record))?;
        Ok(left.map(|(pressed, store)| {
            (record.after(&pressed.outcome), (pressed.outcome.store_start().len(), store))
        }))
    }
}

/// A press on the goals of a continued run's case.
fn of(case: CarryCase, record: Record) -> PressCase {
    PressCase {
        name: case.name,
        deck: case.deck,
        store: case.store,
        record: Record {
            pending: case.given.pending,
            parked: case.given.parked,
            ..record
        },
        terms: case.given.terms,
        bars: case.bars,
        budget: case.budget,
        answer_words: case.answer_words,
        scratch_words: case.scratch_words,
    }
}

fn filled(dice: &mut Dice, case: CarryCase) -> PressCase {
    let record = near_the_greatest(dice, Record::default());
    let mut case = of(case, record);
    if dice.chance(1, 2) {
        case.budget = little(dice);
    }
    if dice.chance(1, 40) {
        case.record.pending |= 1 << *dice.pick(&[32, 40, 63]);
    }
    case
}

/// Counts that a press or two bring to the greatest value, or that are there.
fn near_the_greatest(dice: &mut Dice, record: Record) -> Record {
    let mut near = |count: u64| match dice.below(5) {
        0 => u64::MAX,
        1 | 2 => u64::MAX - dice.below(30) as u64,
        _ => count + dice.below(2_000) as u64,
    };
    Record {
        steps: near(record.steps),
        cost: near(record.cost),
        answers: near(record.answers),
        ..record
    }
}

/// Budgets with which many steps are just paid, or not.
fn little(dice: &mut Dice) -> u32 {
    match dice.below(5) {
        0 => dice.below(3) as u32,
        1 => dice.range(3, 12) as u32,
        2 => dice.range(13, 60) as u32,
        _ => budget(dice),
    }
}

/// The same goals in a store of another length.
fn resize(dice: &mut Dice, store: &mut Vec<u16>, goals: usize) {
    if dice.chance(1, 3) {
        let length = store_words(dice, goals);
        store.truncate(goals.max(store.len().min(length)));
        fill(dice, store, length);
    }
}

/// Adds up, and names what no case came to.
pub fn together(all: Vec<Reached>) -> Result<Reached, String> {
    let mut sum = Reached::new();
    for (label, number) in all.into_iter().flatten() {
        *sum.entry(label).or_default() += number;
    }
    let missing: Vec<&&str> = WANTED.iter().filter(|label| !sum.contains_key(*label)).collect();
    if missing.is_empty() {
        return Ok(sum);
    }
    Err(format!("not reached: {missing:?}"))
}
