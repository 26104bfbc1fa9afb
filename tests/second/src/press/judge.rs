//! Another engine's presses held against this evaluator, case by case.

use super::{press, PressCase, Pressed, Record};
use crate::carry::{stored, Refused};
use crate::evaluation::Stop;
use crate::goals::Goal;
use crate::guarded::Guarded;
use crate::judge::{put, same, Lent, Second};
use crate::rights::reach;
use std::hint::black_box;

/// The shape of the engine's call from C: 0, the outcome and the record after the press, or the refusal's number.
pub trait Engine: crate::carry::judge::Engine {
    fn press(
        &self,
        deck: &[u16],
        terms: u64,
        bars: &[u16],
        budget: u32,
        lent: Lent<'_>,
        outcome: &mut u32,
        record: &mut Record,
    ) -> u32;
}

/// This evaluator behind the same call.
impl Engine for Second {
    fn press(
        &self,
        deck: &[u16],
        terms: u64,
        bars: &[u16],
        budget: u32,
        lent: Lent<'_>,
        outcome: &mut u32,
        record: &mut Record,
    ) -> u32 {
        let sizes = (lent.answers.len(), lent.scratch.len());
        let given = record.given(terms);
        let pressed = press(deck, lent.store, given, bars, budget, sizes.0, sizes.1);
        tell(pressed, lent, outcome, record)
    }
}

/// A press as the call tells it.
pub(super) fn tell(
    pressed: Result<Pressed, Refused>,
    lent: Lent<'_>,
    outcome: &mut u32,
    record: &mut Record,
) -> u32 {
    match pressed {
        Err(refused) => refused.number(),
        Ok(pressed) => {
            *outcome = pressed.number();
            *record = record.after(&pressed.outcome);
            put(lent.answers, &pressed.outcome.answer_list());
            put(lent.store, &pressed.outcome.store_start());
            0
        }
    }
}

/// What some case must come to.
pub const WANTED: [&str; 40] = [
    "stepped",
    "finished",
    "budget",
    "answers",
    "store",
    "an answer",
    "the last goal",
    "finished, goals parked",
    "finished, budget 0",
    "a not cut short by the budget",
    "a not cut short by the store",
    "a not that drops the goal",
    "a not that drops the literal",
    "parked, undecided",
    "parked, oversized",
    "steps stay at the greatest value",
    "cost stays at the greatest value",
    "answers stay at the greatest value",
    "1",
    "2",
    "3",
    "4",
    "5",
    "8",
    "9",
    "12",
    "12, a count over 32 bits",
    "13",
    "15",
    "15, a finished query",
    "15 and 16",
    "16",
    "16, parked goals alone",
    "16, another pending goal than the first",
    "16, parked goals of a finished query",
    "16, a record near the greatest value",
    "something barred",
    "16 from two decks",
    "pressed on two decks",
    "a list of presses that ends",
];

/// Stands in results that are not to be written.
const UNSET: u32 = 0x5a5a;

/// What a press leaves: itself, and the store as the engine left it. Nothing after a refusal.
pub type Left = Option<(Pressed, Vec<u16>)>;

/// Every word of the lent buffers, the record and the deck; gives what the case came to, and what it left.
pub fn judge(engine: &dyn Engine, case: &PressCase) -> Result<(Vec<&'static str>, Left), String> {
    let mut answers = Guarded::<u16>::new(case.answer_words, 0x5a5a);
    let mut store = Guarded::<u16>::with(&case.store, 0x3c3c);
    let mut scratch = Guarded::<u16>::new(case.scratch_words, 0x6969);
    let deck = case.deck.clone();
    let lent = Lent {
        answers: answers.lent(),
        store: store.lent(),
        scratch: scratch.lent(),
    };
    let (mut outcome, mut record) = (UNSET, case.record);
    let number = engine.press(
        black_box(&deck),
        case.terms,
        &case.bars,
        case.budget,
        lent,
        &mut outcome,
        &mut record,
    );
    let unchanged = *black_box(&deck) == case.deck;
    same("the deck is unchanged", &unchanged, &true)?;
    match case.press() {
        Err(refused) => {
            same("refusal", &number, &refused.number())?;
            same("outcome", &outcome, &UNSET)?;
            same("record", &record, &case.record)?;
            answers.holds("answers", &[], 0)?;
            store.holds("store", &case.store, case.store.len())?;
            scratch.holds("scratch", &[], 0)?;
            Ok((refused_labels(case, refused), None))
        }
        Ok(pressed) => {
            same("refusal", &number, &0)?;
            same("outcome", &outcome, &pressed.number())?;
            same("record", &record, &case.record.after(&pressed.outcome))?;
            let listed = pressed.outcome.answer_list();
            answers.holds("answers", &listed, listed.len())?;
            // A press on a finished query changes no word.
            let (start, free) = match pressed.stop {
                Some(Stop::Finished) => (case.store.clone(), 0),
                _ => (pressed.outcome.store_start(), case.scratch_words),
            };
            store.holds("store", &start, case.store.len())?;
            scratch.holds("scratch", &[], free)?;
            let labels = pressed_labels(case, &pressed);
            Ok((labels, Some((pressed, store.lent().to_vec()))))
        }
    }
}

fn refused_labels(case: &PressCase, refused: Refused) -> Vec<&'static str> {
    let numbers = [
        "", "1", "2", "3", "4", "5", "", "", "8", "9", "", "", "12", "13", "", "15", "16",
    ];
    let mut labels = vec![numbers[refused.number() as usize]];
    if let Refused::Rights(number) = refused {
        labels.extend(rights(case, number));
    }
    let over = [case.record.pending, case.record.parked].iter().any(|count| *count > u32::MAX as u64);
    if refused.number() == 12 && over {
        labels.push("12, a count over 32 bits");
    }
    labels
}

/// 15 or 16: which goals reach what is barred.
fn rights(case: &PressCase, number: u32) -> Vec<&'static str> {
    let Ok(deck) = crate::deck::open(&case.deck) else {
        return Vec::new();
    };
    let Ok(start) = stored::read(&deck.symbols, &case.store, case.record.given(case.terms)) else {
        return Vec::new();
    };
    let reached = |goals: &[&Goal]| {
        let literals = goals.iter().flat_map(|goal| &goal.literals);
        reach(&deck, &case.bars, literals).is_err()
    };
    let pending: Vec<&Goal> = start.pending.iter().collect();
    let parked: Vec<&Goal> = start.parked.iter().map(|(goal, _)| goal).collect();
    let later = pending.len() > 1 && !reached(&pending[..1]) && reached(&pending);
    let alone = !reached(&pending) && reached(&parked);
    let labels = match number {
        15 => vec![
            (pending.is_empty(), "15, a finished query"),
            (reached(&pending) || reached(&parked), "15 and 16"),
        ],
        _ => vec![
            (alone, "16, parked goals alone"),
            (later, "16, another pending goal than the first"),
            (pending.is_empty(), "16, parked goals of a finished query"),
            (case.record.steps > u64::MAX / 2, "16, a record near the greatest value"),
        ],
    };
    let so = labels.iter().filter(|(so, _)| *so);
    so.map(|(_, label)| *label).collect()
}

fn pressed_labels(case: &PressCase, pressed: &Pressed) -> Vec<&'static str> {
    let Pressed { stop, outcome } = pressed;
    let watch = &outcome.watch;
    let (before, after) = (case.record, case.record.after(outcome));
    let stays = |count: u64, now: u64, by: u64| now == u64::MAX && count.checked_add(by).is_none();
    let answers = outcome.answers.len() as u64;
    let more = [
        (stop.is_none(), "stepped"),
        (case.bars.contains(&1), "something barred"),
        (answers > 0, "an answer"),
        (stop.is_none() && after.pending == 0, "the last goal"),
        (*stop == Some(Stop::Finished) && after.parked > 0, "finished, goals parked"),
        (*stop == Some(Stop::Finished) && case.budget == 0, "finished, budget 0"),
        (*stop == Some(Stop::Budget) && watch.cut > 0, "a not cut short by the budget"),
        (*stop == Some(Stop::Store) && watch.cut > 0, "a not cut short by the store"),
        (watch.closed[0] > 0, "a not that drops the goal"),
        (watch.closed[1] > 0, "a not that drops the literal"),
        (watch.parked[2] > 0, "parked, undecided"),
        (watch.parked[3] > 0, "parked, oversized"),
        (stays(before.steps, after.steps, outcome.steps as u64), "steps stay at the greatest value"),
        (stays(before.cost, after.cost, outcome.cost as u64), "cost stays at the greatest value"),
        (stays(before.answers, after.answers, answers), "answers stay at the greatest value"),
    ];
    let stops = ["finished", "budget", "answers", "store"];
    let more = more.iter().filter(|(so, _)| *so).map(|(_, label)| *label);
    stop.map(|stop| stops[stop as usize]).into_iter().chain(more).collect()
}
