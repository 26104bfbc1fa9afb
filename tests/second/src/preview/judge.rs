//! Another engine's call held against this evaluator, case by case.

use super::{preview, PreviewCase, Refused};
use crate::case::Case;
use crate::deck;
use crate::evaluation::{Limits, Outcome, Stop};
use crate::guarded::Guarded;
use crate::index::MOST_WITHOUT_ROWS;
use crate::judge::{put, report_of, same, Lent, Report};
use std::hint::black_box;

/// What is asked of the deck: a query with the clause at the deck's end, for a member, with a budget.
pub struct Asked<'a> {
    pub deck: &'a [u16],
    pub clause: &'a [u16],
    pub query: &'a [u16],
    pub bars: &'a [u16],
    pub budget: u32,
}

/// The shape of the engine's call from C: 0 and the report filled in, or the refusal's number.
pub trait Engine: Sync {
    fn preview(&self, asked: Asked<'_>, lent: Lent<'_>, report: &mut Report) -> u32;
}

/// This evaluator behind the same call.
pub struct Second;

impl Engine for Second {
    fn preview(&self, asked: Asked<'_>, lent: Lent<'_>, report: &mut Report) -> u32 {
        let (limits, scratch) = sizes(&asked, &lent);
        let result = preview(asked.deck, asked.clause, asked.query, asked.bars, limits, scratch);
        tell(result.map_err(Refused::number), lent, report)
    }
}

pub(super) fn sizes(asked: &Asked<'_>, lent: &Lent<'_>) -> (Limits, usize) {
    let limits = Limits {
        budget: asked.budget,
        answer_words: lent.answers.len(),
        store_words: lent.store.len(),
    };
    (limits, lent.scratch.len())
}

pub(super) fn tell(result: Result<Outcome, u32>, lent: Lent<'_>, report: &mut Report) -> u32 {
    match result {
        Err(number) => number,
        Ok(outcome) => {
            *report = report_of(&outcome);
            put(lent.answers, &outcome.answer_list());
            put(lent.store, &outcome.store_start());
            0
        }
    }
}

/// What some case must come to.
pub const COMES_TO: [&str; 32] = [
    "finished",
    "budget",
    "answers",
    "store",
    "parked",
    "more answers than without it",
    "fewer answers than without it",
    "nothing changes",
    "a first clause",
    "the 65th of its predicate",
    "256 cells",
    "16,384 words",
    "format 2",
    "about a barred predicate",
    "1",
    "2",
    "3",
    "4",
    "5",
    "the copy's 1",
    "the copy's 1, over 65,535 cells",
    "the copy's 3",
    "the copy's 4",
    "the copy's 5",
    "6",
    "7",
    "8",
    "9",
    "13 of the clause",
    "14",
    "15",
    "16 through the clause",
];

/// Stands in results that are not to be written.
const UNSET: Report = Report {
    stop: 0x5a5a,
    steps: 0x3c3c,
    cost: 0x6969,
    answers: 0x0f0f,
    pending: 0x3333,
    parked: 0x5555,
};

/// The report, every word of the buffers, and what is only read; gives what the case came to.
pub fn judge(engine: &dyn Engine, case: &PreviewCase) -> Result<Vec<&'static str>, String> {
    let run = &case.run;
    let (deck, clause) = (run.deck.clone(), case.clause.clone());
    let mut answers = Guarded::<u16>::new(run.answer_words, 0x5a5a);
    let mut store = Guarded::<u16>::new(run.store_words, 0x3c3c);
    let mut scratch = Guarded::<u16>::new(run.scratch_words, 0x6969);
    let lent = Lent {
        answers: answers.lent(),
        store: store.lent(),
        scratch: scratch.lent(),
    };
    let asked = Asked {
        deck: black_box(&deck),
        clause: black_box(&clause),
        query: &run.query,
        bars: &run.bars,
        budget: run.budget,
    };
    let mut report = UNSET;
    let number = engine.preview(asked, lent, &mut report);
    same("the deck is unchanged", &(*black_box(&deck) == run.deck), &true)?;
    same("the clause is unchanged", &(*black_box(&clause) == case.clause), &true)?;
    match case.preview() {
        Err(refused) => {
            same("refusal", &number, &refused.number())?;
            same("report", &report, &UNSET)?;
            answers.holds("answers", &[], 0)?;
            store.holds("store", &[], 0)?;
            scratch.holds("scratch", &[], 0)?;
            Ok(refusals(case, refused))
        }
        Ok(outcome) => {
            same("refusal", &number, &0)?;
            same("report", &report, &report_of(&outcome))?;
            let listed = outcome.answer_list();
            answers.holds("answers", &listed, listed.len())?;
            store.holds("store", &outcome.store_start(), run.store_words)?;
            scratch.holds("scratch", &[], run.scratch_words)?;
            Ok(accepted(case, &outcome))
        }
    }
}

/// The same numbers and the same answers.
fn alike(one: &Outcome, other: &Outcome) -> bool {
    report_of(one) == report_of(other) && one.answer_list() == other.answer_list()
}

fn reached(all: &[(bool, &'static str)]) -> Vec<&'static str> {
    all.iter().filter(|one| one.0).map(|one| one.1).collect()
}

/// How many clauses there are about the added clause's predicate, with it.
fn about(case: &PreviewCase) -> usize {
    let copy = case.copy().map(|copy| deck::open(&copy));
    let Some(Ok(copy)) = copy else { return 0 };
    copy.about[case.clause[0] as usize].len()
}

fn accepted(case: &PreviewCase, outcome: &Outcome) -> Vec<&'static str> {
    let run = &case.run;
    let without = run.run();
    let answers = without.as_ref().map(|without| without.answer_list().len());
    let with = outcome.answer_list().len();
    let finished = |outcome: &Outcome| outcome.stop == Stop::Finished;
    let told = finished(outcome) && without.as_ref().is_ok_and(finished);
    let words = run.deck.len() + 1 + case.clause.len();
    let all = [
        (outcome.stop == Stop::Finished, "finished"),
        (outcome.stop == Stop::Budget, "budget"),
        (outcome.stop == Stop::Answers, "answers"),
        (outcome.stop == Stop::Store, "store"),
        (!outcome.parked.is_empty(), "parked"),
        (told && answers.is_ok_and(|answers| answers < with), "more answers than without it"),
        (told && answers.is_ok_and(|answers| answers > with), "fewer answers than without it"),
        (told && without.as_ref().is_ok_and(|without| alike(without, outcome)), "nothing changes"),
        (run.deck[3] == 0, "a first clause"),
        (case.clause.len() > 1 && about(case) == MOST_WITHOUT_ROWS + 1, "the 65th of its predicate"),
        (case.clause.len() == 256, "256 cells"),
        (words == super::MOST_WORDS, "16,384 words"),
        (run.deck[0] == 2, "format 2"),
        (run.bars[case.clause[0] as usize] == 1, "about a barred predicate"),
    ];
    reached(&all)
}

fn refusals(case: &PreviewCase, refused: Refused) -> Vec<&'static str> {
    let without = case.run.run().err();
    let clause = |number: u32| without != Some(number);
    match refused {
        Refused::Deck(number) => vec![["1", "2", "3", "4", "5"][number as usize - 1]],
        Refused::Copy(1) if case.clause.len() > 65_535 => vec!["the copy's 1, over 65,535 cells"],
        Refused::Copy(1) => vec!["the copy's 1"],
        Refused::Copy(3) => vec!["the copy's 3"],
        Refused::Copy(4) => vec!["the copy's 4"],
        Refused::Copy(_) => vec!["the copy's 5"],
        Refused::Run(number @ 6..=9) => vec![["6", "7", "8", "9"][number as usize - 6]],
        Refused::Run(13) => reached(&[(clause(13), "13 of the clause")]),
        Refused::Run(14) => vec!["14"],
        Refused::Run(15) => vec!["15"],
        Refused::Run(_) => reached(&[(clause(16), "16 through the clause")]),
    }
}

/// A case's run with another deck.
pub(super) fn over(case: &PreviewCase, deck: Vec<u16>) -> PreviewCase {
    let run = Case { deck, ..case.run.clone() };
    PreviewCase { run, clause: case.clause.clone() }
}
