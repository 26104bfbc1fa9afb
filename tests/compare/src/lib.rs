//! A safe wrapper of the engine's C calls (`include/leads.h`).

use second::carry::Given;
use second::judge::{Engine, Lent, Report};
use second::mean::{Column, Mean};
use second::press::Record;
use second::preview::judge::Asked;

#[cfg(feature = "stand-in")]
mod stand_in;

mod c {
    extern "C" {
        pub fn leads_open(deck: *const u16, deck_words: usize) -> u32;
        pub fn leads_check(
            deck: *const u16,
            deck_words: usize,
            query: *const u16,
            query_words: usize,
        ) -> u32;
        #[allow(clippy::too_many_arguments)]
        pub fn leads_run(
            deck: *const u16,
            deck_words: usize,
            query: *const u16,
            query_words: usize,
            bars: *const u16,
            bar_words: usize,
            budget: u32,
            answers: *mut u16,
            answer_words: usize,
            store: *mut u16,
            store_words: usize,
            scratch: *mut u16,
            scratch_words: usize,
            stop: *mut u32,
            steps: *mut u32,
            cost: *mut u32,
            answer_count: *mut u64,
            pending: *mut u32,
            parked: *mut u32,
        ) -> u32;
        #[allow(clippy::too_many_arguments)]
        pub fn leads_continue(
            deck: *const u16,
            deck_words: usize,
            pending: u64,
            parked: u64,
            terms: u64,
            bars: *const u16,
            bar_words: usize,
            budget: u32,
            answers: *mut u16,
            answer_words: usize,
            store: *mut u16,
            store_words: usize,
            scratch: *mut u16,
            scratch_words: usize,
            stop: *mut u32,
            steps: *mut u32,
            cost: *mut u32,
            answer_count: *mut u64,
            pending_after: *mut u32,
            parked_after: *mut u32,
        ) -> u32;
        #[allow(clippy::too_many_arguments)]
        pub fn leads_press(
            deck: *const u16,
            deck_words: usize,
            terms: u64,
            bars: *const u16,
            bar_words: usize,
            budget: u32,
            answers: *mut u16,
            answer_words: usize,
            store: *mut u16,
            store_words: usize,
            scratch: *mut u16,
            scratch_words: usize,
            outcome: *mut u32,
            steps: *mut u64,
            cost: *mut u64,
            answer_count: *mut u64,
            pending: *mut u64,
            parked: *mut u64,
        ) -> u32;
        pub fn leads_read_text(
            text: *const u8,
            text_bytes: usize,
            deck: *mut u16,
            deck_room: usize,
            deck_words: *mut usize,
            place: *mut usize,
        ) -> u32;
        pub fn leads_write_text(
            deck: *const u16,
            deck_words: usize,
            text: *mut u8,
            text_room: usize,
            text_bytes: *mut usize,
        ) -> u32;
        pub fn leads_drill(
            deck: *const u16,
            deck_words: usize,
            n: u32,
            after: *const u16,
            after_words: usize,
            list: *mut u16,
            list_words: usize,
            count: *mut u64,
        ) -> u32;
        pub fn leads_levels(
            deck: *const u16,
            deck_words: usize,
            levels: *mut u16,
            level_words: usize,
            circular: *mut u32,
        ) -> u32;
        #[allow(clippy::too_many_arguments)]
        pub fn leads_preview(
            deck: *const u16,
            deck_words: usize,
            clause: *const u16,
            clause_words: usize,
            query: *const u16,
            query_words: usize,
            bars: *const u16,
            bar_words: usize,
            budget: u32,
            answers: *mut u16,
            answer_words: usize,
            store: *mut u16,
            store_words: usize,
            scratch: *mut u16,
            scratch_words: usize,
            stop: *mut u32,
            steps: *mut u32,
            cost: *mut u32,
            answer_count: *mut u64,
            pending: *mut u32,
            parked: *mut u32,
        ) -> u32;
        #[allow(clippy::too_many_arguments)]
        pub fn leads_mean(
            deck: *const u16,
            deck_words: usize,
            list: *const u16,
            list_words: usize,
            count: u64,
            terms: u64,
            column: u64,
            sum: *mut i64,
            whole: *mut i64,
            remainder: *mut u64,
        ) -> u32;
    }
}

/// 0, or the refusal's number, 1 to 5.
pub fn open(deck: &[u16]) -> u32 {
    unsafe { c::leads_open(deck.as_ptr(), deck.len()) }
}

/// 0, or the refusal's number, 1 to 7, 13 or 14.
pub fn check(deck: &[u16], query: &[u16]) -> u32 {
    unsafe { c::leads_check(deck.as_ptr(), deck.len(), query.as_ptr(), query.len()) }
}

/// 0 and the report filled in, or the refusal's number, 1 to 9 or 13 to 16, with nothing touched.
pub fn run(deck: &[u16], query: &[u16], bars: &[u16], budget: u32, lent: Lent<'_>, report: &mut Report) -> u32 {
    unsafe {
        c::leads_run(
            deck.as_ptr(),
            deck.len(),
            query.as_ptr(),
            query.len(),
            bars.as_ptr(),
            bars.len(),
            budget,
            lent.answers.as_mut_ptr(),
            lent.answers.len(),
            lent.store.as_mut_ptr(),
            lent.store.len(),
            lent.scratch.as_mut_ptr(),
            lent.scratch.len(),
            &mut report.stop,
            &mut report.steps,
            &mut report.cost,
            &mut report.answers,
            &mut report.pending,
            &mut report.parked,
        )
    }
}

/// Carries on from the goals at the start of the store: 0 and the report filled in, or the refusal's number, 1 to 5, 8, 9, 12, 13, 15 or 16, with nothing touched.
pub fn carry_on(deck: &[u16], given: Given, bars: &[u16], budget: u32, lent: Lent<'_>, report: &mut Report) -> u32 {
    unsafe {
        c::leads_continue(
            deck.as_ptr(),
            deck.len(),
            given.pending,
            given.parked,
            given.terms,
            bars.as_ptr(),
            bars.len(),
            budget,
            lent.answers.as_mut_ptr(),
            lent.answers.len(),
            lent.store.as_mut_ptr(),
            lent.store.len(),
            lent.scratch.as_mut_ptr(),
            lent.scratch.len(),
            &mut report.stop,
            &mut report.steps,
            &mut report.cost,
            &mut report.answers,
            &mut report.pending,
            &mut report.parked,
        )
    }
}

/// One step: 0, the outcome and the record after it, or the refusal's number, 1 to 5, 8, 9, 12, 13, 15 or 16, with nothing touched.
pub fn press(deck: &[u16], terms: u64, bars: &[u16], budget: u32, lent: Lent<'_>, outcome: &mut u32, record: &mut Record) -> u32 {
    unsafe {
        c::leads_press(
            deck.as_ptr(),
            deck.len(),
            terms,
            bars.as_ptr(),
            bars.len(),
            budget,
            lent.answers.as_mut_ptr(),
            lent.answers.len(),
            lent.store.as_mut_ptr(),
            lent.store.len(),
            lent.scratch.as_mut_ptr(),
            lent.scratch.len(),
            outcome,
            &mut record.steps,
            &mut record.cost,
            &mut record.answers,
            &mut record.pending,
            &mut record.parked,
        )
    }
}

/// 0 and the number of words written, or the refusal's number, 10, 11 or 1 to 5; with 10 the place.
pub fn read_text(text: &[u8], deck: &mut [u16], words: &mut usize, place: &mut usize) -> u32 {
    unsafe { c::leads_read_text(text.as_ptr(), text.len(), deck.as_mut_ptr(), deck.len(), words, place) }
}

/// 0 and the number of bytes written, or the refusal's number, 1 to 5 or 11.
pub fn write_text(deck: &[u16], text: &mut [u8], bytes: &mut usize) -> u32 {
    unsafe { c::leads_write_text(deck.as_ptr(), deck.len(), text.as_mut_ptr(), text.len(), bytes) }
}

/// 0 and the number of terms written, or the refusal's number, 1 to 5 or 19.
pub fn drill(deck: &[u16], n: u32, after: &[u16], list: &mut [u16], count: &mut u64) -> u32 {
    let (after, after_words) = (after.as_ptr(), after.len());
    unsafe { c::leads_drill(deck.as_ptr(), deck.len(), n, after, after_words, list.as_mut_ptr(), list.len(), count) }
}

/// 0, the numbers and the name, or the refusal's number, 1 to 5, with nothing touched.
pub fn levels(deck: &[u16], levels: &mut [u16], circular: &mut u32) -> u32 {
    unsafe { c::leads_levels(deck.as_ptr(), deck.len(), levels.as_mut_ptr(), levels.len(), circular) }
}

/// 0, the sum and the mean, or the refusal's number, 1 to 5, 17 or 18, with nothing touched.
pub fn mean(deck: &[u16], list: &[u16], asked: Column, found: &mut Mean) -> u32 {
    let Column { count, terms, column } = asked;
    let Mean { sum, whole, remainder } = found;
    unsafe { c::leads_mean(deck.as_ptr(), deck.len(), list.as_ptr(), list.len(), count, terms, column, sum, whole, remainder) }
}

/// 0 and the report filled in, or the refusal's number, 1 to 9 or 13 to 16, with nothing touched.
pub fn preview(asked: Asked<'_>, lent: Lent<'_>, report: &mut Report) -> u32 {
    unsafe {
        c::leads_preview(
            asked.deck.as_ptr(),
            asked.deck.len(),
            asked.clause.as_ptr(),
            asked.clause.len(),
            asked.query.as_ptr(),
            asked.query.len(),
            asked.bars.as_ptr(),
            asked.bars.len(),
            asked.budget,
            lent.answers.as_mut_ptr(),
            lent.answers.len(),
            lent.store.as_mut_ptr(),
            lent.store.len(),
            lent.scratch.as_mut_ptr(),
            lent.scratch.len(),
            &mut report.stop,
            &mut report.steps,
            &mut report.cost,
            &mut report.answers,
            &mut report.pending,
            &mut report.parked,
        )
    }
}

/// The engine behind the calls that the second evaluator judges.
pub struct Leads;

impl Engine for Leads {
    fn open(&self, deck: &[u16]) -> u32 {
        open(deck)
    }

    fn check(&self, deck: &[u16], query: &[u16]) -> u32 {
        check(deck, query)
    }

    fn run(
        &self,
        deck: &[u16],
        query: &[u16],
        bars: &[u16],
        budget: u32,
        lent: Lent<'_>,
        report: &mut Report,
    ) -> u32 {
        run(deck, query, bars, budget, lent, report)
    }
}

impl second::carry::judge::Engine for Leads {
    fn carry_on(&self, deck: &[u16], given: Given, bars: &[u16], budget: u32, lent: Lent<'_>, report: &mut Report) -> u32 {
        carry_on(deck, given, bars, budget, lent, report)
    }
}

impl second::press::judge::Engine for Leads {
    fn press(&self, deck: &[u16], terms: u64, bars: &[u16], budget: u32, lent: Lent<'_>, outcome: &mut u32, record: &mut Record) -> u32 {
        press(deck, terms, bars, budget, lent, outcome, record)
    }
}

impl second::text::judge::Engine for Leads {
    fn read(&self, text: &[u8], deck: &mut [u16], words: &mut usize, place: &mut usize) -> u32 {
        read_text(text, deck, words, place)
    }

    fn write(&self, deck: &[u16], text: &mut [u8], bytes: &mut usize) -> u32 {
        write_text(deck, text, bytes)
    }
}

impl second::drill::judge::Engine for Leads {
    fn drill(&self, deck: &[u16], n: u32, after: &[u16], list: &mut [u16], count: &mut u64) -> u32 {
        drill(deck, n, after, list, count)
    }
}

impl second::levels::judge::Engine for Leads {
    fn levels(&self, deck: &[u16], list: &mut [u16], circular: &mut u32) -> u32 {
        levels(deck, list, circular)
    }
}

impl second::mean::judge::Engine for Leads {
    fn mean(&self, deck: &[u16], list: &[u16], asked: Column, found: &mut Mean) -> u32 {
        mean(deck, list, asked, found)
    }
}

impl second::preview::judge::Engine for Leads {
    fn preview(&self, asked: Asked<'_>, lent: Lent<'_>, report: &mut Report) -> u32 {
        preview(asked, lent, report)
    }
}
