//! Another engine's continued runs held against this evaluator, case by case.

use super::{carry_on, formats, CarryCase, Fault, Given, Refused};
use crate::evaluation::{Outcome, Stop};
use crate::goals::Goal;
use crate::guarded::Guarded;
use crate::index::has_rows;
use crate::judge::{put, report_of, same, Left, Lent, Report};
use crate::rights::reach;
use std::hint::black_box;

/// The shape of the engine's call from C: 0 and the report filled in, or the refusal's number.
pub trait Engine: crate::judge::Engine + Sync {
    fn carry_on(
        &self,
        deck: &[u16],
        given: Given,
        bars: &[u16],
        budget: u32,
        lent: Lent<'_>,
        report: &mut Report,
    ) -> u32;
}

/// This evaluator behind the same call.
impl Engine for crate::judge::Second {
    fn carry_on(
        &self,
        deck: &[u16],
        given: Given,
        bars: &[u16],
        budget: u32,
        lent: Lent<'_>,
        report: &mut Report,
    ) -> u32 {
        let sizes = (lent.answers.len(), lent.scratch.len());
        match carry_on(deck, lent.store, given, bars, budget, sizes.0, sizes.1) {
            Err(refused) => refused.number(),
            Ok(outcome) => {
                *report = report_of(&outcome);
                put(lent.answers, &outcome.answer_list());
                put(lent.store, &outcome.store_start());
                0
            }
        }
    }
}

/// What some case must come to.
pub const WANTED: [&str; 65] = [
    "finished",
    "budget",
    "answers",
    "store",
    "no goals",
    "budget 0",
    "only parked goals",
    "parked goals given, and new ones",
    "a goal of 1,024 words",
    "goals fill the store",
    "an inner level cut short",
    "a step not paid, budget left",
    "an inner step not paid, budget left",
    "an oversized goal not paid",
    "the greatest budget",
    "a fifth continuation",
    "parked anew, floundered",
    "parked anew, undecided",
    "parked anew, oversized",
    "parked deeper, undecided",
    "parked deeper, oversized",
    "parked deeper, deep",
    "1",
    "2",
    "3",
    "4",
    "5",
    "8, too short",
    "8, too long",
    "9",
    "12, end of the store",
    "12, too short",
    "12, too long",
    "12, a pending goal's mark",
    "12, a parked goal's mark 0",
    "12, a mark over 4",
    "12, answer terms",
    "12, literals",
    "12, numbering",
    "12, a count over 32 bits",
    "12, counts that add up over 64 bits",
    "12, answer terms over 32 bits",
    "13",
    "13, no goals",
    "rows: finished",
    "rows: budget",
    "rows: answers",
    "rows: store",
    "rows: a step not paid, budget left",
    "rows: no clause to try",
    "rows: 12",
    "rows: 13",
    "15, too short",
    "15, too long",
    "15, a functor",
    "15, another word",
    "15, no goals",
    "15 and 16",
    "16",
    "16, pending goals",
    "16, parked goals",
    "16, another pending goal than the first",
    "16, the last parked goal",
    "16, budget 0",
    "something barred",
];

/// Stand in results that are not to be written.
const UNSET: Report = Report {
    stop: 0x5a5a,
    steps: 0x5a5b,
    cost: 0x5a5f,
    answers: 0x5a5c,
    pending: 0x5a5d,
    parked: 0x5a5e,
};

/// Every word of the lent buffers, the report and the deck; gives what the case came to, and what it left.
pub fn judge(engine: &dyn Engine, case: &CarryCase) -> Result<(Vec<&'static str>, Left), String> {
    let mut answers = Guarded::<u16>::new(case.answer_words, 0x5a5a);
    let mut store = Guarded::<u16>::with(&case.store, 0x3c3c);
    let mut scratch = Guarded::<u16>::new(case.scratch_words, 0x6969);
    let deck = case.deck.clone();
    let lent = Lent {
        answers: answers.lent(),
        store: store.lent(),
        scratch: scratch.lent(),
    };
    let mut report = UNSET;
    let number = engine.carry_on(black_box(&deck), case.given, &case.bars, case.budget, lent, &mut report);
    let unchanged = *black_box(&deck) == case.deck;
    same("the deck is unchanged", &unchanged, &true)?;
    match case.run() {
        Err(refused) => {
            same("refusal", &number, &refused.number())?;
            same("report", &report, &UNSET)?;
            answers.holds("answers", &[], 0)?;
            store.holds("store", &case.store, case.store.len())?;
            scratch.holds("scratch", &[], 0)?;
            Ok((refused_labels(case, refused), None))
        }
        Ok(outcome) => {
            same("refusal", &number, &0)?;
            same("report", &report, &report_of(&outcome))?;
            let listed = outcome.answer_list();
            answers.holds("answers", &listed, listed.len())?;
            store.holds("store", &outcome.store_start(), case.store.len())?;
            scratch.holds("scratch", &[], case.scratch_words)?;
            let left = (outcome, store.lent().to_vec());
            Ok((ran_labels(case, &left.0), Some(left)))
        }
    }
}

fn refused_labels(case: &CarryCase, refused: Refused) -> Vec<&'static str> {
    let rows = crate::deck::open(&case.deck).is_ok_and(|deck| has_rows(&deck));
    let mut labels = reasons(case, refused);
    match refused.number() {
        12 if rows => labels.push("rows: 12"),
        13 if rows => labels.push("rows: 13"),
        _ => {}
    }
    labels.extend(formats::refused(case, refused.number()));
    labels
}

fn reasons(case: &CarryCase, refused: Refused) -> Vec<&'static str> {
    let fault = match refused {
        Refused::Before(8) if case.store.len() < 1_024 => return vec!["8, too short"],
        Refused::Before(8) => return vec!["8, too long"],
        Refused::Before(number) => {
            let labels = ["", "1", "2", "3", "4", "5", "", "", "", "9"];
            return vec![labels[number as usize]];
        }
        Refused::Goals(fault) => fault,
        Refused::Loose if case.given.pending + case.given.parked == 0 => {
            return vec!["13", "13, no goals"]
        }
        Refused::Loose => return vec!["13"],
        Refused::Rights(number) => return rights(case, number),
    };
    let mut labels = vec![match fault {
        Fault::End => "12, end of the store",
        Fault::Short => "12, too short",
        Fault::Long => "12, too long",
        Fault::PendingMark => "12, a pending goal's mark",
        Fault::Unparked => "12, a parked goal's mark 0",
        Fault::MarkOver => "12, a mark over 4",
        Fault::Terms => "12, answer terms",
        Fault::Literals => "12, literals",
        Fault::Numbering => "12, numbering",
    }];
    let Given {
        pending,
        parked,
        terms,
    } = case.given;
    let over = |count: u64| count > u32::MAX as u64;
    let counts = [
        (over(pending) || over(parked), "12, a count over 32 bits"),
        (
            pending.checked_add(parked).is_none(),
            "12, counts that add up over 64 bits",
        ),
        (over(terms), "12, answer terms over 32 bits"),
    ];
    labels.extend(counts.iter().filter(|(so, _)| *so).map(|(_, label)| label));
    labels
}

/// 15 or 16: what is wrong with the list, or where it reaches.
fn rights(case: &CarryCase, number: u32) -> Vec<&'static str> {
    let Ok(deck) = crate::deck::open(&case.deck) else {
        return Vec::new();
    };
    let Ok(start) = super::stored::read(&deck.symbols, &case.store, case.given) else {
        return Vec::new();
    };
    let reached = |goals: &[&Goal]| {
        let literals = goals.iter().flat_map(|goal| &goal.literals);
        reach(&deck, &case.bars, literals).is_err()
    };
    let pending: Vec<&Goal> = start.pending.iter().collect();
    let parked: Vec<&Goal> = start.parked.iter().map(|(goal, _)| goal).collect();
    let fits = case.bars.len() == deck.symbols.len();
    let none = pending.is_empty() && parked.is_empty();
    let labels = match number {
        15 => [
            (case.bars.len() < deck.symbols.len(), "15, too short"),
            (case.bars.len() > deck.symbols.len(), "15, too long"),
            (fits && case.bars.iter().all(|bar| *bar <= 1), "15, a functor"),
            (fits && case.bars.iter().any(|bar| *bar > 1), "15, another word"),
            (none, "15, no goals"),
            (reached(&pending) || reached(&parked), "15 and 16"),
        ],
        _ => [
            (true, "16"),
            (reached(&pending) && !reached(&parked), "16, pending goals"),
            (!reached(&pending) && reached(&parked), "16, parked goals"),
            (
                pending.len() > 1 && !reached(&pending[..1]) && reached(&pending),
                "16, another pending goal than the first",
            ),
            (
                parked.len() > 1 && !reached(&parked[..parked.len() - 1]) && reached(&parked),
                "16, the last parked goal",
            ),
            (case.budget == 0, "16, budget 0"),
        ],
    };
    let so = labels.iter().filter(|(so, _)| *so);
    so.map(|(_, label)| *label).collect()
}

fn ran_labels(case: &CarryCase, outcome: &Outcome) -> Vec<&'static str> {
    let stops = ["finished", "budget", "answers", "store"];
    let (given, watch) = (case.given, &outcome.watch);
    let lengths = case.lengths();
    let unpaid = outcome.stop == Stop::Budget && watch.left > 0;
    let rows = watch.rows.get() > 0;
    let over_rows = [
        "rows: finished",
        "rows: budget",
        "rows: answers",
        "rows: store",
    ];
    let more = [
        (case.bars.contains(&1), "something barred"),
        (rows, over_rows[outcome.stop as usize]),
        (rows && unpaid, "rows: a step not paid, budget left"),
        (watch.empty_rows.get() > 0, "rows: no clause to try"),
        (unpaid, "a step not paid, budget left"),
        (
            unpaid && watch.cut > 0,
            "an inner step not paid, budget left",
        ),
        (watch.unpaid.get(), "an oversized goal not paid"),
        (case.budget == u32::MAX, "the greatest budget"),
        (lengths.is_empty(), "no goals"),
        (case.budget == 0 && given.pending > 0, "budget 0"),
        (given.pending == 0 && given.parked > 0, "only parked goals"),
        (
            given.parked > 0 && watch.parked.iter().sum::<u32>() > 0,
            "parked goals given, and new ones",
        ),
        (lengths.contains(&1_024), "a goal of 1,024 words"),
        (case.words() == case.store.len(), "goals fill the store"),
        (watch.cut > 0, "an inner level cut short"),
        (watch.parked[1] > 0, "parked anew, floundered"),
        (watch.parked[2] > 0, "parked anew, undecided"),
        (watch.parked[3] > 0, "parked anew, oversized"),
        (watch.parked_deeper[2] > 0, "parked deeper, undecided"),
        (watch.parked_deeper[3] > 0, "parked deeper, oversized"),
        (watch.parked_deeper[4] > 0, "parked deeper, deep"),
    ];
    let more = more.iter().filter(|(so, _)| *so).map(|(_, label)| *label);
    [stops[outcome.stop as usize]]
        .into_iter()
        .chain(more)
        .chain(formats::ran(case, outcome))
        .collect()
}
