//! Members' lists, by what a run starts from.

use super::dice::Dice;
use crate::carry::{stored, CarryCase};
use crate::case::Case;
use crate::deck::{self, Deck};
use crate::evaluation::Start;
use crate::query;
use crate::rights::no_bars;
use crate::rights::pairs::named_openly;

/// For a fresh run.
pub(crate) fn for_query(dice: &mut Dice, case: &Case) -> Vec<u16> {
    let Ok(deck) = deck::open(&case.deck) else {
        return no_bars(&case.deck);
    };
    let query = query::read(&deck, &case.query);
    let start = query.map_or_else(|_| Start::default(), Start::fresh);
    list(dice, &deck, &start)
}

/// For a run that carries on.
pub(crate) fn for_goals(dice: &mut Dice, case: &CarryCase) -> Vec<u16> {
    let Ok(deck) = deck::open(&case.deck) else {
        return no_bars(&case.deck);
    };
    let start = stored::read(&deck.symbols, &case.store, case.given).unwrap_or_default();
    list(dice, &deck, &start)
}

/// The lists with which a run is continued: mostly the same member's.
pub(crate) struct Members {
    dice: Dice,
}

impl Members {
    pub fn new(seed: u64) -> Members {
        let dice = Dice::new(!seed ^ 0xba55);
        Members { dice }
    }

    pub fn next(&mut self, case: &CarryCase) -> Vec<u16> {
        if self.dice.chance(4, 5) {
            return case.bars.clone();
        }
        for_goals(&mut self.dice, case)
    }
}

/// Nothing barred, some predicates, some that are not reached, one that is, or a wrong list.
fn list(dice: &mut Dice, deck: &Deck, start: &Start) -> Vec<u16> {
    let mut bars = vec![0; deck.symbols.len()];
    let reached = named_openly(deck, &bars, start);
    let predicates = |wanted: &dyn Fn(usize) -> bool| -> Vec<usize> {
        let all = 0..deck.symbols.len();
        all.filter(|at| deck.symbols[*at].predicate && wanted(*at))
            .collect()
    };
    match dice.weighted(&[12, 3, 5, 4, 4]) {
        0 => {}
        1 => bar(dice, &mut bars, &predicates(&|_| true)),
        2 => bar(dice, &mut bars, &predicates(&|at| !reached[at])),
        3 => {
            let places = predicates(&|at| reached[at]);
            if !places.is_empty() {
                bars[*dice.pick(&places)] = 1;
            }
        }
        _ => {
            if dice.chance(1, 2) {
                bar(dice, &mut bars, &predicates(&|_| true));
            }
            spoil(dice, deck, &mut bars);
        }
    }
    bars
}

/// All of them, one, or some.
fn bar(dice: &mut Dice, bars: &mut [u16], places: &[usize]) {
    if places.is_empty() {
        return;
    }
    match dice.below(4) {
        0 => places.iter().for_each(|at| bars[*at] = 1),
        1 => bars[*dice.pick(places)] = 1,
        _ => {
            for at in places {
                bars[*at] = dice.chance(1, 3).into();
            }
        }
    }
}

fn spoil(dice: &mut Dice, deck: &Deck, bars: &mut Vec<u16>) {
    let functors: Vec<usize> = (0..bars.len())
        .filter(|at| !deck.symbols[*at].predicate)
        .collect();
    match dice.below(8) {
        0 => bars.truncate(bars.len() - 1),
        1 => bars.push(0),
        2 => bars.push(1),
        3 => bars.clear(),
        4 => bars.extend(bars.clone()),
        5 if !functors.is_empty() => bars[*dice.pick(&functors)] = 1,
        _ => {
            let at = dice.below(bars.len());
            bars[at] = *dice.pick(&[2, 2, 3, 255, 256, 257, 32_768, 65_535]);
        }
    }
}
