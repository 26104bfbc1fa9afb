//! Another engine held against this evaluator, case by case.
//!
//! The trait has the shape of the engine's calls from C: `leads_open`,
//! `leads_check` and `leads_run`, with the lent buffers as slices.

use crate::case::Case;
use crate::evaluation::Outcome;
use crate::guarded::Guarded;

/// The numbers an accepted run returns; `stop` is 0 finished, 1 budget,
/// 2 answers, 3 store.
#[derive(Clone, Copy, Debug, Default, PartialEq, Eq)]
pub struct Report {
    pub stop: u32,
    pub steps: u32,
    pub cost: u32,
    pub answers: u64,
    pub pending: u32,
    pub parked: u32,
}

/// The buffers lent to a run.
pub struct Lent<'a> {
    pub answers: &'a mut [u16],
    pub store: &'a mut [u16],
    pub scratch: &'a mut [u16],
}

pub trait Engine {
    fn open(&self, deck: &[u16]) -> u32;
    fn check(&self, deck: &[u16], query: &[u16]) -> u32;
    /// 0 and the report filled in, or the refusal's number.
    fn run(
        &self,
        deck: &[u16],
        query: &[u16],
        bars: &[u16],
        budget: u32,
        lent: Lent<'_>,
        report: &mut Report,
    ) -> u32;
}

/// This evaluator behind the same calls.
pub struct Second;

impl Engine for Second {
    fn open(&self, deck: &[u16]) -> u32 {
        crate::open(deck)
    }

    fn check(&self, deck: &[u16], query: &[u16]) -> u32 {
        crate::check(deck, query)
    }

    fn run(
        &self,
        deck: &[u16],
        query: &[u16],
        bars: &[u16],
        budget: u32,
        lent: Lent<'_>,
        report: &mut Report,
    ) -> u32 {
        let sizes = (lent.answers.len(), lent.store.len(), lent.scratch.len());
        match crate::run(deck, query, bars, budget, sizes.0, sizes.1, sizes.2) {
            Err(number) => number,
            Ok(outcome) => {
                *report = report_of(&outcome);
                put(lent.answers, &outcome.answer_list());
                put(lent.store, &outcome.store_start());
                0
            }
        }
    }
}

pub(crate) fn put(buffer: &mut [u16], words: &[u16]) {
    buffer[..words.len()].copy_from_slice(words);
}

pub(crate) fn report_of(outcome: &Outcome) -> Report {
    Report {
        stop: outcome.stop as u32,
        steps: outcome.steps,
        cost: outcome.cost,
        answers: outcome.answers.len() as u64,
        pending: outcome.pending.len() as u32,
        parked: outcome.parked.len() as u32,
    }
}

/// Holds an engine's three calls against this evaluator.
pub fn judge(engine: &dyn Engine, case: &Case) -> Result<(), String> {
    let opened = engine.open(&case.deck);
    same("open", &opened, &crate::open(&case.deck))?;
    let checked = engine.check(&case.deck, &case.query);
    same("check", &checked, &crate::check(&case.deck, &case.query))?;
    judge_run(engine, case).map(|_| ())
}

/// What a run leaves: its outcome, and the store as the engine left it. Nothing after a refusal.
pub type Left = Option<(Outcome, Vec<u16>)>;

pub fn judge_run(engine: &dyn Engine, case: &Case) -> Result<Left, String> {
    let mut answers = Guarded::<u16>::new(case.answer_words, 0x5a5a);
    let mut store = Guarded::<u16>::new(case.store_words, 0x3c3c);
    let mut scratch = Guarded::<u16>::new(case.scratch_words, 0x6969);
    let lent = Lent {
        answers: answers.lent(),
        store: store.lent(),
        scratch: scratch.lent(),
    };
    let mut report = Report::default();
    let number = engine.run(
        &case.deck,
        &case.query,
        &case.bars,
        case.budget,
        lent,
        &mut report,
    );
    match case.run() {
        Err(expected) => {
            same("refusal", &number, &expected)?;
            answers.holds("answers", &[], 0)?;
            store.holds("store", &[], 0)?;
            scratch.holds("scratch", &[], 0)?;
            Ok(None)
        }
        Ok(outcome) => {
            same("refusal", &number, &0)?;
            same("report", &report, &report_of(&outcome))?;
            let listed = outcome.answer_list();
            answers.holds("answers", &listed, listed.len())?;
            store.holds("store", &outcome.store_start(), case.store_words)?;
            scratch.holds("scratch", &[], case.scratch_words)?;
            Ok(Some((outcome, store.lent().to_vec())))
        }
    }
}

pub(crate) fn same<T: PartialEq + std::fmt::Debug>(
    what: &str,
    found: &T,
    expected: &T,
) -> Result<(), String> {
    if found == expected {
        return Ok(());
    }
    Err(format!("{what}: {found:?}, expected {expected:?}"))
}
