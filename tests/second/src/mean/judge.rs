//! Another engine's call held against this evaluator, case by case.

use super::{mean, Column, Mean, MeanCase, Refused};
use crate::carry::Fault;
use crate::judge::same;
use crate::terms::VARIABLE;
use std::hint::black_box;

/// The shape of the engine's call from C: 0 and the three numbers, or the number of the refusal.
pub trait Engine: Sync {
    fn mean(&self, deck: &[u16], list: &[u16], asked: Column, found: &mut Mean) -> u32;
}

/// This evaluator behind the same call.
pub struct Second;

impl Engine for Second {
    fn mean(&self, deck: &[u16], list: &[u16], asked: Column, found: &mut Mean) -> u32 {
        tell(mean(deck, list, asked).map_err(Refused::number), found)
    }
}

pub(super) fn tell(result: Result<Mean, u32>, found: &mut Mean) -> u32 {
    match result {
        Ok(mean) => {
            *found = mean;
            0
        }
        Err(number) => number,
    }
}

/// What some case must come to.
pub const COMES_TO: [&str; 34] = [
    "a mean",
    "a mean that is whole",
    "a sum below 0",
    "a mean below 0 that is not whole",
    "the greatest remainder",
    "the greatest sum",
    "the least sum",
    "one answer",
    "65,535 answers",
    "a later column than the first",
    "variables in another column",
    "functors in another column",
    "words after the answers",
    "1",
    "2",
    "3",
    "4",
    "5",
    "17, no answers",
    "17, over 65,535 answers",
    "17, no such column",
    "17, no answer terms",
    "17, end of the list",
    "17, too short",
    "17, too long",
    "17, a mark",
    "17, answer terms",
    "17, literals",
    "17, numbering",
    "17, and an entry that is no number",
    "17, a number over 32 bits",
    "18, a variable",
    "18, a functor",
    "18, format 1",
];

/// Stand in results that are not to be written.
const UNSET: Mean = Mean {
    sum: 0x5a5a_0f0f_5a5a,
    whole: -0x3c3c_0f0f_3c3c,
    remainder: 0x6969_0f0f_6969,
};

/// The three numbers, and what is only read; gives what the case came to.
pub fn judge(engine: &dyn Engine, case: &MeanCase) -> Result<Vec<&'static str>, String> {
    let (deck, list) = (case.deck.clone(), case.list.clone());
    let mut found = UNSET;
    let number = engine.mean(black_box(&deck), black_box(&list), case.asked, &mut found);
    same("the deck is unchanged", &(*black_box(&deck) == case.deck), &true)?;
    same("the list is unchanged", &(*black_box(&list) == case.list), &true)?;
    match case.mean() {
        Ok(expected) => {
            same("refusal", &number, &0)?;
            same("mean", &found, &expected)?;
            Ok(accepted(case, expected))
        }
        Err(refused) => {
            same("refusal", &number, &refused.number())?;
            same("mean", &found, &UNSET)?;
            Ok(refusals(case, refused))
        }
    }
}

fn accepted(case: &MeanCase, mean: Mean) -> Vec<&'static str> {
    let Column { count, column, .. } = case.asked;
    let (cells, numbers) = (case.cells(), case.numbers());
    let functor = |cell: &u16| *cell < VARIABLE && !numbers.contains(cell);
    let all = [
        (true, "a mean"),
        (mean.remainder == 0 && count > 1, "a mean that is whole"),
        (mean.sum < 0, "a sum below 0"),
        (mean.sum < 0 && mean.remainder > 0, "a mean below 0 that is not whole"),
        (count > 2 && mean.remainder == count - 1, "the greatest remainder"),
        (mean.sum == 65_535 * 32_767, "the greatest sum"),
        (mean.sum == -65_535 * 32_768, "the least sum"),
        (count == 1, "one answer"),
        (count == 65_535, "65,535 answers"),
        (column > 0, "a later column than the first"),
        (cells.iter().any(|cell| *cell >= VARIABLE), "variables in another column"),
        (cells.iter().any(functor), "functors in another column"),
        (case.goals().words() < case.list.len(), "words after the answers"),
    ];
    reached(&all)
}

fn reached(all: &[(bool, &'static str)]) -> Vec<&'static str> {
    all.iter().filter(|one| one.0).map(|one| one.1).collect()
}

fn refusals(case: &MeanCase, refused: Refused) -> Vec<&'static str> {
    let Column { count, terms, column } = case.asked;
    let listed = matches!(refused, Refused::Answer(_));
    let name = match refused {
        Refused::Deck(number) => ["1", "2", "3", "4", "5"][number as usize - 1],
        Refused::None => "17, no answers",
        Refused::Many => "17, over 65,535 answers",
        Refused::Column if terms == 0 => "17, no answer terms",
        Refused::Column => "17, no such column",
        Refused::Answer(fault) => fault_name(fault),
        Refused::Variable => "18, a variable",
        Refused::Functor if case.deck[0] == 1 => "18, format 1",
        Refused::Functor => "18, a functor",
    };
    let entry = case.list.get(2).filter(|_| column == 0);
    let wrong = entry.is_some_and(|cell| !case.numbers().contains(cell));
    let far = |number: u64| number > u32::MAX.into();
    let far = refused.number() == 17 && [count, terms, column].into_iter().any(far);
    reached(&[
        (true, name),
        (listed && wrong, "17, and an entry that is no number"),
        (far, "17, a number over 32 bits"),
    ])
}

fn fault_name(fault: Fault) -> &'static str {
    match fault {
        Fault::End => "17, end of the list",
        Fault::Short => "17, too short",
        Fault::Long => "17, too long",
        Fault::PendingMark | Fault::Unparked | Fault::MarkOver => "17, a mark",
        Fault::Terms => "17, answer terms",
        Fault::Literals => "17, literals",
        Fault::Numbering => "17, numbering",
    }
}
