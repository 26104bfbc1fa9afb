//! Request U4, sentence by sentence.

use second::rights::no_bars;
use second::carry::{carry_on, Fault, Given, Refused};
use second::random::case;
use second::{Case, Outcome, Stop};

/// End of a, end of b; a is drawn; x is a lead if x is an end and not drawn.
const L: [u16; 29] = [
    1, 5, 8, 4, 13, 12, 17, 29, 0, 0, 257, 257, 257, 0, 2, 4, 6, 2, 0, 2, 1, 3, 0, 4, 32768, 2,
    32768, 16387, 32768,
];
/// a is a lead if a is not drawn; the same of b; "what is not drawn?", parked.
const NOT_DRAWN_A: [u16; 5] = [5, 1, 0, 16387, 0];
const NOT_DRAWN_B: [u16; 5] = [5, 1, 1, 16387, 1];
const FLOUNDERED: [u16; 5] = [4096 + 5, 1, 32768, 16387, 32768];

fn given(pending: u64, parked: u64, terms: u64) -> Given {
    Given {
        pending,
        parked,
        terms,
    }
}

fn store(goals: &[&[u16]]) -> Vec<u16> {
    let mut words = goals.concat();
    words.resize(1_024, 65_535);
    words
}

fn go(goals: &[&[u16]], numbers: Given, budget: u32) -> Result<Outcome, Refused> {
    carry_on(&L, &store(goals), numbers, &no_bars(&L), budget, 8_192, 8_192)
}

fn counts(outcome: &Outcome) -> (Stop, u32, usize, usize, usize, u32) {
    let (pending, parked) = (outcome.pending.len(), outcome.parked.len());
    let (answers, cost) = (outcome.answers.len(), outcome.cost);
    (outcome.stop, outcome.steps, answers, pending, parked, cost)
}

#[test]
fn pending_goals_resume_and_parked_ones_remain() {
    let goals: [&[u16]; 3] = [&NOT_DRAWN_A, &NOT_DRAWN_B, &FLOUNDERED];
    let outcome = go(&goals, given(2, 1, 1), 100).expect("a run");
    // Not drawn(a): 1, drawn(a) and its success: 2. Not drawn(b): 1, drawn(b): 1. The answer: 1. Each drawn takes an equation.
    assert_eq!(counts(&outcome), (Stop::Finished, 6, 1, 0, 1, 8));
    assert_eq!(outcome.answer_list(), [3, 1, 1]);
    assert_eq!(outcome.store_start(), FLOUNDERED);
}

#[test]
fn new_parked_goals_follow_the_given_ones() {
    let pending = [5, 1, 32768, 16388, 32768];
    let deep = [4 * 4096 + 3, 1, 1];
    let goals: [&[u16]; 3] = [&pending, &deep, &FLOUNDERED];
    let outcome = go(&goals, given(1, 2, 1), 100).expect("a run");
    assert_eq!(counts(&outcome), (Stop::Finished, 1, 0, 0, 3, 1));
    let marked = [&[4096 + 5][..], &pending[1..]].concat();
    assert_eq!(
        outcome.store_start(),
        [&deep[..], &FLOUNDERED, &marked].concat()
    );
}

#[test]
fn a_not_cut_short_is_done_again() {
    let goals: [&[u16]; 1] = [&NOT_DRAWN_A];
    for (budget, steps, cost) in [(0, 0, 0), (1, 1, 1), (2, 1, 1), (3, 2, 3)] {
        let outcome = go(&goals, given(1, 0, 1), budget).expect("a run");
        assert_eq!(counts(&outcome), (Stop::Budget, steps, 0, 1, 0, cost));
        assert_eq!(outcome.store_start(), NOT_DRAWN_A);
    }
    let outcome = go(&goals, given(1, 0, 1), 4).expect("a run");
    assert_eq!(counts(&outcome), (Stop::Finished, 3, 0, 0, 0, 4));
}

#[test]
fn no_goals_are_finished_whatever_the_store_holds() {
    for terms in [0, 1, 1_023, u64::MAX] {
        for budget in [0, 5] {
            let outcome = go(&[&[9_999, 7]], given(0, 0, terms), budget).expect("a run");
            assert_eq!(counts(&outcome), (Stop::Finished, 0, 0, 0, 0, 0));
        }
    }
}

#[test]
fn held_are_all_given_goals() {
    // 7 words pending and 1,013 parked; the step puts 5 and 5 words in place of the 7, and costs 3.
    let parked = [vec![4096 + 1_013, 1, 0], [2, 0].repeat(505)].concat();
    let lead = [7, 1, 32768, 2, 32768, 16387, 32768];
    let tight = |words: usize, budget: u32| {
        let mut store = [&lead[..], &parked, &FLOUNDERED].concat();
        store.resize(words, 0);
        counts(&carry_on(&L, &store, given(1, 2, 1), &no_bars(&L), budget, 0, 8_192).expect("a run"))
    };
    assert_eq!(tight(1_025, 3), (Stop::Store, 0, 0, 1, 2, 0));
    assert_eq!(tight(1_027, 3), (Stop::Store, 0, 0, 1, 2, 0));
    assert_eq!(tight(1_027, 2), (Stop::Budget, 0, 0, 1, 2, 0));
    assert_eq!(tight(1_028, 3), (Stop::Budget, 1, 0, 2, 2, 3));
}

#[test]
fn refused_with_12() {
    use Fault::*;
    let fault = |goals: &[&[u16]], numbers| match go(goals, numbers, 9) {
        Err(Refused::Goals(fault)) => fault,
        other => panic!("{goals:?}: {other:?}"),
    };
    let one = given(1, 0, 1);
    assert_eq!(fault(&[&[0, 0]], one), Short);
    assert_eq!(fault(&[&[1, 0]], one), Short);
    assert_eq!(fault(&[&[1_025, 1, 0]], one), Long);
    assert_eq!(fault(&[&[4_095, 1, 0]], one), Long);
    assert_eq!(fault(&[&FLOUNDERED], one), PendingMark);
    assert_eq!(fault(&[&NOT_DRAWN_A], given(0, 1, 1)), Unparked);
    assert_eq!(fault(&[&[5 * 4096 + 3, 1, 0]], given(0, 1, 1)), MarkOver);
    assert_eq!(fault(&[&[15 * 4096 + 3, 1, 0]], given(0, 1, 1)), MarkOver);
    assert_eq!(fault(&[&NOT_DRAWN_A], given(1, 0, 0)), Terms);
    assert_eq!(fault(&[&NOT_DRAWN_A], given(1, 0, 2)), Terms);
    assert_eq!(fault(&[&NOT_DRAWN_A], given(1, 0, u64::MAX)), Terms);
    assert_eq!(fault(&[&[3, 0, 0]], one), Terms);
    assert_eq!(fault(&[&[3, 1, 2]], one), Terms);
    assert_eq!(fault(&[&[4, 1, 0, 1]], one), Literals);
    assert_eq!(fault(&[&[4, 1, 0, 2]], one), Literals);
    assert_eq!(fault(&[&[3, 1, 32769]], one), Numbering);
    assert_eq!(fault(&[&[7, 1, 0, 2, 32769, 2, 32768]], one), Numbering);
    assert_eq!(fault(&[&NOT_DRAWN_A, &[2, 0]], given(2, 0, 1)), Terms);
    for pending in [2, 3, 1 << 16, 1 << 32, 1 << 63, u64::MAX] {
        assert_eq!(fault(&[&NOT_DRAWN_A], given(pending, 1, 1)), Long);
        assert_eq!(fault(&[&NOT_DRAWN_A], given(1, pending, 1)), Long);
    }
    let full = [2, 0].repeat(512);
    assert_eq!(fault(&[&full], given(513, 0, 0)), End);
    assert_eq!(fault(&[&full], given(u64::MAX, 1, 0)), End);
}

#[test]
fn checks_go_in_order() {
    let number = |deck: &[u16], store: &[u16], scratch| {
        let refused = carry_on(deck, store, given(1, 0, 9), &no_bars(deck), 0, 0, scratch);
        refused.expect_err("a refusal").number()
    };
    let mut wrong = L;
    wrong[28] = 32770;
    assert_eq!(number(&L[1..], &[], 0), 1);
    assert_eq!(number(&wrong, &[], 0), 5);
    assert_eq!(number(&L, &[0; 1_023], 0), 8);
    assert_eq!(number(&L, &[0; 65_536], 0), 8);
    assert_eq!(number(&L, &[0; 1_024], 8_191), 9);
    assert_eq!(number(&L, &[0; 65_535], 8_192), 12);
}

/// Request U5: a deck with a loose variable takes no open goals; those of a deck without may have any.
#[test]
fn loose_variables() {
    // Lead of x if x is an end and y is not drawn.
    let mut loose = L;
    loose[28] = 32769;
    let number = |goals: &[&[u16]], numbers, scratch| {
        let refused = carry_on(&loose, &store(goals), numbers, &no_bars(&loose), 9, 9, scratch);
        refused.expect_err("a refusal").number()
    };
    assert_eq!(number(&[&NOT_DRAWN_A], given(1, 0, 1), 8_192), 13);
    assert_eq!(number(&[], given(0, 0, 0), 8_192), 13);
    assert_eq!(number(&[&FLOUNDERED], given(0, 1, 1), 8_192), 13);
    assert_eq!(number(&[&NOT_DRAWN_A], given(1, 0, 2), 8_192), 12);
    assert_eq!(number(&[&NOT_DRAWN_A], given(1, 0, 1), 8_191), 9);
    // Of goals filled in by hand a pending one is parked with mark 1, and an answer has a variable.
    let goals: [&[u16]; 2] = [&[5, 1, 32768, 16387, 32768], &[3, 1, 32768]];
    let outcome = go(&goals, given(2, 0, 1), 9).expect("a run");
    assert_eq!(counts(&outcome), (Stop::Finished, 2, 1, 0, 1, 2));
    assert_eq!(outcome.store_start(), FLOUNDERED);
    assert_eq!(outcome.answer_list(), [3, 1, 32768]);
}

/// Unless a step wants more store than there is, a run cut anywhere and continued gives the same answers and ends with the same goals.
#[test]
fn cut_and_continued_is_as_one_run() {
    let mut compared = 0;
    for seed in 0..1_500 {
        let whole = Case {
            answer_words: 8_192,
            store_words: 65_535,
            ..case(seed)
        };
        let Ok(last) = whole.run() else { continue };
        if last.stop != Stop::Finished {
            continue;
        }
        let terms = variables(&whole.query);
        for cut in [
            0,
            1,
            last.cost / 3,
            last.cost / 2,
            last.cost.saturating_sub(1),
        ] {
            let first = Case {
                budget: cut,
                ..whole.clone()
            };
            let first = first.run().expect("a run");
            let then = continued(&whole, &first, terms);
            assert_eq!(
                [first.answer_list(), then.answer_list()].concat(),
                last.answer_list(),
                "{}",
                whole.name
            );
            assert_eq!(then.store_start(), last.store_start(), "{}", whole.name);
            compared += 1;
        }
    }
    assert!(compared > 1_000, "{compared}");
}

fn continued(case: &Case, first: &Outcome, terms: u64) -> Outcome {
    let mut store = first.store_start();
    store.resize(case.store_words, 0);
    let numbers = given(first.pending.len() as u64, first.parked.len() as u64, terms);
    let budget = u32::MAX;
    carry_on(&case.deck, &store, numbers, &case.bars, budget, 8_192, 8_192).expect("what a run leaves")
}

fn variables(query: &[u16]) -> u64 {
    let last = query.iter().filter(|cell| **cell >= 32_768).max();
    last.map_or(0, |last| (last - 32_768) as u64 + 1)
}
