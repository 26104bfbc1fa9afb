//! Budgets and buffer sizes.

use super::dice::Dice;
use crate::case::Case;
use crate::evaluation::{Outcome, Stop};
use crate::rights::no_bars;
use crate::world::World;

pub fn sized(dice: &mut Dice, world: &World, most_cost: u32) -> Case {
    let mut case = Case {
        name: String::new(),
        deck: world.deck(),
        query: world.query.clone(),
        bars: no_bars(&world.deck()),
        budget: budget(dice).min(most_cost),
        answer_words: answer_words(dice),
        store_words: store_words(dice),
        scratch_words: scratch_words(dice),
    };
    if dice.chance(1, 4) {
        tighten(dice, &mut case);
    }
    case
}

fn budget(dice: &mut Dice) -> u32 {
    let cost = match dice.weighted(&[8, 22, 34, 28, 8]) {
        0 => dice.range(0, 5),
        1 => dice.range(6, 80),
        2 => dice.range(81, 900),
        3 => dice.range(901, 4_000),
        _ => dice.range(4_001, 12_000),
    };
    cost as u32
}

fn answer_words(dice: &mut Dice) -> usize {
    match dice.below(6) {
        0 => dice.range(0, 8),
        1 => dice.range(9, 60),
        2 => dice.range(61, 1_200),
        _ => 8_192,
    }
}

fn store_words(dice: &mut Dice) -> usize {
    match dice.below(10) {
        0..=2 => 1_024,
        3 | 4 => dice.range(1_024, 1_300),
        5 => dice.range(1_301, 4_096),
        6 => 65_535,
        _ => 16_384,
    }
}

fn scratch_words(dice: &mut Dice) -> usize {
    if dice.chance(3, 4) {
        8_192
    } else {
        dice.range(8_192, 9_000)
    }
}

/// Sets one size to where the run just fits, or one off.
fn tighten(dice: &mut Dice, case: &mut Case) {
    let generous = Case {
        answer_words: 8_192,
        store_words: 65_535,
        ..case.clone()
    };
    let Ok(outcome) = generous.run() else {
        return;
    };
    match dice.below(3) {
        0 => case.budget = near_a_step(dice, &outcome),
        1 => {
            let words = some_answers(dice, &outcome);
            case.answer_words = one_off(dice, words);
            case.store_words = 65_535;
        }
        _ => {
            let words = one_off(dice, outcome.watch.most_held);
            case.store_words = words.clamp(1_024, 65_535);
            case.answer_words = 8_192;
        }
    }
}

/// A budget with which a step is just paid, is one short, or is broken off somewhere inside; or the greatest, where the run ends by itself.
pub fn near_a_step(dice: &mut Dice, outcome: &Outcome) -> u32 {
    if outcome.stop == Stop::Finished && dice.chance(1, 8) {
        return u32::MAX - dice.below(3) as u32;
    }
    let costs = &outcome.watch.costs;
    let dearest = (0..costs.len()).max_by_key(|at| costs[*at]);
    let at = match dearest {
        Some(at) if dice.chance(1, 3) => at,
        _ => dice.range(0, costs.len()),
    };
    let cost = costs.get(at).copied().unwrap_or(1);
    let part = match dice.below(5) {
        0 => 0,
        1 => cost,
        2 => cost - 1,
        3 => cost + 1,
        _ => dice.below(cost as usize) as u64,
    };
    (costs[..at].iter().sum::<u64>() + part) as u32
}

fn one_off(dice: &mut Dice, number: usize) -> usize {
    (number + dice.below(3)).saturating_sub(1)
}

/// Words of the first few answers.
fn some_answers(dice: &mut Dice, outcome: &Outcome) -> usize {
    let count = dice.range(0, outcome.answers.len());
    outcome.answers[..count].iter().map(Vec::len).sum()
}
