//! The second evaluator under the names of the engine's calls, right or with the slip that `SLIP` names.

use second::carry::judge::Engine as Continues;
use second::carry::{slips, Given};
use second::cost::slips::SLIPS as PAYING;
use second::deck::slips::SLIPS as READING;
use second::drill::judge as drills;
use second::drill::slips::SLIPS as DRILLING;
use second::index::slips::SLIPS as TRYING;
use second::judge::{Engine as Runs, Lent, Report};
use second::levels::judge as ranks;
use second::levels::slips::SLIPS as RANKING;
use second::loose::slips as loose;
use second::mean::slips::SLIPS as MEANS;
use second::mean::{judge as means, Column, Mean};
use second::press::judge::Engine as Presses;
use second::press::slips::SLIPS as PRESSING;
use second::press::Record;
use second::preview::judge as previews;
use second::preview::slips::SLIPS as PREVIEWING;
use second::rights::slips::SLIPS as RIGHTS;
use second::text::judge::{Engine, Second};
use second::text::slips::SLIPS;
use std::slice::{from_raw_parts, from_raw_parts_mut};
use std::sync::LazyLock;

static ENGINE: LazyLock<&dyn Engine> = LazyLock::new(|| match SLIPS.iter().find(|slip| named(slip.name)) {
    Some(slip) => slip,
    None => match READING.iter().find(|slip| named(slip.name)) {
        Some(slip) => slip,
        None => &Second,
    },
});

static CONTINUES: LazyLock<&dyn Continues> = LazyLock::new(|| match slips::SLIPS.iter().find(|slip| named(slip.name)) {
    Some(slip) => slip,
    None => match PAYING.iter().chain(&TRYING).find(|slip| named(slip.name)) {
        Some(slip) => slip,
        None => match RIGHTS.iter().find(|slip| named(slip.name)) {
            Some(slip) => slip,
            None => match READING.iter().find(|slip| named(slip.name)) {
                Some(slip) => slip,
                None => &second::judge::Second,
            },
        },
    },
});

static RUNS: LazyLock<&(dyn Runs + Sync)> = LazyLock::new(|| match loose::SLIPS.iter().find(|slip| named(slip.name)) {
    Some(slip) => slip,
    None => match PAYING.iter().chain(&TRYING).find(|slip| named(slip.name)) {
        Some(slip) => slip,
        None => match RIGHTS.iter().find(|slip| named(slip.name)) {
            Some(slip) => slip,
            None => match READING.iter().find(|slip| named(slip.name)) {
                Some(slip) => slip,
                None => &second::judge::Second,
            },
        },
    },
});

static PRESSES: LazyLock<&dyn Presses> = LazyLock::new(|| match PRESSING.iter().find(|slip| named(slip.name)) {
    Some(slip) => slip,
    None => &second::judge::Second,
});

static DRILLS: LazyLock<&dyn drills::Engine> = LazyLock::new(|| match DRILLING.iter().find(|slip| named(slip.name)) {
    Some(slip) => slip,
    None => match READING.iter().find(|slip| named(slip.name)) {
        Some(slip) => slip,
        None => &drills::Second,
    },
});

static LEVELS: LazyLock<&dyn ranks::Engine> = LazyLock::new(|| match RANKING.iter().find(|slip| named(slip.name)) {
    Some(slip) => slip,
    None => match READING.iter().find(|slip| named(slip.name)) {
        Some(slip) => slip,
        None => &ranks::Second,
    },
});

static MEAN: LazyLock<&dyn means::Engine> = LazyLock::new(|| match MEANS.iter().find(|slip| named(slip.name)) {
    Some(slip) => slip,
    None => match READING.iter().find(|slip| named(slip.name)) {
        Some(slip) => slip,
        None => &means::Second,
    },
});

static PREVIEWS: LazyLock<&dyn previews::Engine> = LazyLock::new(|| match PREVIEWING.iter().find(|slip| named(slip.name)) {
    Some(slip) => slip,
    None => &previews::Second,
});

/// The slip of this name is asked for. A name that no slip has is an error.
fn named(name: &str) -> bool {
    std::env::var("SLIP").is_ok_and(|wanted| {
        let texts = SLIPS.iter().map(|slip| slip.name);
        let runs = loose::SLIPS.iter().map(|slip| slip.name);
        let paying = PAYING.iter().chain(&TRYING).map(|slip| slip.name);
        let drilling = DRILLING.iter().map(|slip| slip.name);
        let ranking = RANKING.iter().map(|slip| slip.name);
        let rights = RIGHTS.iter().map(|slip| slip.name);
        let reading = READING.iter().map(|slip| slip.name);
        let means = MEANS.iter().map(|slip| slip.name);
        let pressing = PRESSING.iter().map(|slip| slip.name);
        let previewing = PREVIEWING.iter().map(|slip| slip.name);
        let runs = runs.chain(previewing).chain(pressing).chain(paying).chain(drilling).chain(ranking).chain(rights).chain(reading).chain(means);
        let mut all = texts.chain(slips::SLIPS.iter().map(|slip| slip.name)).chain(runs);
        assert!(all.any(|one| one == wanted), "no slip of this name");
        wanted == name
    })
}

/// # Safety
/// As in `include/leads.h`.
#[no_mangle]
pub unsafe extern "C" fn leads_open(deck: *const u16, deck_words: usize) -> u32 {
    RUNS.open(from_raw_parts(deck, deck_words))
}

/// # Safety
/// As in `include/leads.h`.
#[no_mangle]
pub unsafe extern "C" fn leads_check(
    deck: *const u16,
    deck_words: usize,
    query: *const u16,
    query_words: usize,
) -> u32 {
    RUNS.check(from_raw_parts(deck, deck_words), from_raw_parts(query, query_words))
}

/// # Safety
/// As in `include/leads.h`.
#[no_mangle]
#[allow(clippy::too_many_arguments)]
pub unsafe extern "C" fn leads_run(
    deck: *const u16,
    deck_words: usize,
    query: *const u16,
    query_words: usize,
    bars: *const u16,
    bar_words: usize,
    budget: u32,
    answers: *mut u16,
    answer_words: usize,
    store: *mut u16,
    store_words: usize,
    scratch: *mut u16,
    scratch_words: usize,
    stop: *mut u32,
    steps: *mut u32,
    cost: *mut u32,
    answer_count: *mut u64,
    pending: *mut u32,
    parked: *mut u32,
) -> u32 {
    let deck = from_raw_parts(deck, deck_words);
    let query = from_raw_parts(query, query_words);
    let bars = from_raw_parts(bars, bar_words);
    let lent = Lent {
        answers: from_raw_parts_mut(answers, answer_words),
        store: from_raw_parts_mut(store, store_words),
        scratch: from_raw_parts_mut(scratch, scratch_words),
    };
    let mut report = Report::default();
    let number = RUNS.run(deck, query, bars, budget, lent, &mut report);
    if number == 0 {
        (*stop, *steps, *cost, *answer_count) = (report.stop, report.steps, report.cost, report.answers);
        (*pending, *parked) = (report.pending, report.parked);
    }
    number
}

/// # Safety
/// As in `include/leads.h`.
#[no_mangle]
#[allow(clippy::too_many_arguments)]
pub unsafe extern "C" fn leads_continue(
    deck: *const u16,
    deck_words: usize,
    pending: u64,
    parked: u64,
    terms: u64,
    bars: *const u16,
    bar_words: usize,
    budget: u32,
    answers: *mut u16,
    answer_words: usize,
    store: *mut u16,
    store_words: usize,
    scratch: *mut u16,
    scratch_words: usize,
    stop: *mut u32,
    steps: *mut u32,
    cost: *mut u32,
    answer_count: *mut u64,
    pending_after: *mut u32,
    parked_after: *mut u32,
) -> u32 {
    let deck = from_raw_parts(deck, deck_words);
    let given = Given { pending, parked, terms };
    let bars = from_raw_parts(bars, bar_words);
    let lent = Lent {
        answers: from_raw_parts_mut(answers, answer_words),
        store: from_raw_parts_mut(store, store_words),
        scratch: from_raw_parts_mut(scratch, scratch_words),
    };
    let mut report = Report {
        stop: *stop,
        steps: *steps,
        cost: *cost,
        answers: *answer_count,
        pending: *pending_after,
        parked: *parked_after,
    };
    let number = CONTINUES.carry_on(deck, given, bars, budget, lent, &mut report);
    (*stop, *steps, *cost, *answer_count) = (report.stop, report.steps, report.cost, report.answers);
    (*pending_after, *parked_after) = (report.pending, report.parked);
    number
}

/// # Safety
/// As in `include/leads.h`.
#[no_mangle]
#[allow(clippy::too_many_arguments)]
pub unsafe extern "C" fn leads_press(
    deck: *const u16,
    deck_words: usize,
    terms: u64,
    bars: *const u16,
    bar_words: usize,
    budget: u32,
    answers: *mut u16,
    answer_words: usize,
    store: *mut u16,
    store_words: usize,
    scratch: *mut u16,
    scratch_words: usize,
    outcome: *mut u32,
    steps: *mut u64,
    cost: *mut u64,
    answer_count: *mut u64,
    pending: *mut u64,
    parked: *mut u64,
) -> u32 {
    let deck = from_raw_parts(deck, deck_words);
    let bars = from_raw_parts(bars, bar_words);
    let lent = Lent {
        answers: from_raw_parts_mut(answers, answer_words),
        store: from_raw_parts_mut(store, store_words),
        scratch: from_raw_parts_mut(scratch, scratch_words),
    };
    let mut record = Record {
        steps: *steps,
        cost: *cost,
        answers: *answer_count,
        pending: *pending,
        parked: *parked,
    };
    let number = PRESSES.press(deck, terms, bars, budget, lent, &mut *outcome, &mut record);
    (*steps, *cost, *answer_count) = (record.steps, record.cost, record.answers);
    (*pending, *parked) = (record.pending, record.parked);
    number
}

/// # Safety
/// As in `include/leads.h`.
#[no_mangle]
pub unsafe extern "C" fn leads_read_text(
    text: *const u8,
    text_bytes: usize,
    deck: *mut u16,
    deck_room: usize,
    deck_words: *mut usize,
    place: *mut usize,
) -> u32 {
    let text = from_raw_parts(text, text_bytes);
    let deck = from_raw_parts_mut(deck, deck_room);
    ENGINE.read(text, deck, &mut *deck_words, &mut *place)
}

/// # Safety
/// As in `include/leads.h`.
#[no_mangle]
pub unsafe extern "C" fn leads_write_text(
    deck: *const u16,
    deck_words: usize,
    text: *mut u8,
    text_room: usize,
    text_bytes: *mut usize,
) -> u32 {
    let deck = from_raw_parts(deck, deck_words);
    let text = from_raw_parts_mut(text, text_room);
    ENGINE.write(deck, text, &mut *text_bytes)
}

/// # Safety
/// As in `include/leads.h`.
#[no_mangle]
#[allow(clippy::too_many_arguments)]
pub unsafe extern "C" fn leads_drill(
    deck: *const u16,
    deck_words: usize,
    n: u32,
    after: *const u16,
    after_words: usize,
    list: *mut u16,
    list_words: usize,
    count: *mut u64,
) -> u32 {
    let (deck, after) = (from_raw_parts(deck, deck_words), from_raw_parts(after, after_words));
    DRILLS.drill(deck, n, after, from_raw_parts_mut(list, list_words), &mut *count)
}

/// # Safety
/// As in `include/leads.h`.
#[no_mangle]
pub unsafe extern "C" fn leads_levels(
    deck: *const u16,
    deck_words: usize,
    levels: *mut u16,
    level_words: usize,
    circular: *mut u32,
) -> u32 {
    let deck = from_raw_parts(deck, deck_words);
    let levels = from_raw_parts_mut(levels, level_words);
    LEVELS.levels(deck, levels, &mut *circular)
}

/// # Safety
/// As in `include/leads.h`.
#[no_mangle]
#[allow(clippy::too_many_arguments)]
pub unsafe extern "C" fn leads_mean(
    deck: *const u16,
    deck_words: usize,
    list: *const u16,
    list_words: usize,
    count: u64,
    terms: u64,
    column: u64,
    sum: *mut i64,
    whole: *mut i64,
    remainder: *mut u64,
) -> u32 {
    let (deck, list) = (from_raw_parts(deck, deck_words), from_raw_parts(list, list_words));
    let mut found = Mean { sum: *sum, whole: *whole, remainder: *remainder };
    let number = MEAN.mean(deck, list, Column { count, terms, column }, &mut found);
    (*sum, *whole, *remainder) = (found.sum, found.whole, found.remainder);
    number
}

/// # Safety
/// As in `include/leads.h`.
#[no_mangle]
#[allow(clippy::too_many_arguments)]
pub unsafe extern "C" fn leads_preview(
    deck: *const u16,
    deck_words: usize,
    clause: *const u16,
    clause_words: usize,
    query: *const u16,
    query_words: usize,
    bars: *const u16,
    bar_words: usize,
    budget: u32,
    answers: *mut u16,
    answer_words: usize,
    store: *mut u16,
    store_words: usize,
    scratch: *mut u16,
    scratch_words: usize,
    stop: *mut u32,
    steps: *mut u32,
    cost: *mut u32,
    answer_count: *mut u64,
    pending: *mut u32,
    parked: *mut u32,
) -> u32 {
    let asked = previews::Asked {
        deck: from_raw_parts(deck, deck_words),
        clause: from_raw_parts(clause, clause_words),
        query: from_raw_parts(query, query_words),
        bars: from_raw_parts(bars, bar_words),
        budget,
    };
    let lent = Lent {
        answers: from_raw_parts_mut(answers, answer_words),
        store: from_raw_parts_mut(store, store_words),
        scratch: from_raw_parts_mut(scratch, scratch_words),
    };
    let mut report = Report {
        stop: *stop,
        steps: *steps,
        cost: *cost,
        answers: *answer_count,
        pending: *pending,
        parked: *parked,
    };
    let number = PREVIEWS.preview(asked, lent, &mut report);
    (*stop, *steps, *cost, *answer_count) = (report.stop, report.steps, report.cost, report.answers);
    (*pending, *parked) = (report.pending, report.parked);
    number
}
