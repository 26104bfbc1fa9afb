//! Request U14, sentence by sentence; the stated presses; and the comparison finds slips.

use second::carry::{carry_on, Given};
use second::judge::Second;
use second::press::comparison::{together, Comparison};
use second::press::judge::Engine;
use second::press::slips::SLIPS;
use second::press::vectors::{parse, print, result};
use second::press::{press, PressCase, Pressed, Record};
use second::random::carries::carry_case;
use second::Stop;

/// End of a, end of b; a is drawn; x is a lead if x is an end and not drawn.
const L: [u16; 29] = [
    1, 5, 8, 4, 13, 12, 17, 29, 0, 0, 257, 257, 257, 0, 2, 4, 6, 2, 0, 2, 1, 3, 0, 4, 32768, 2,
    32768, 16387, 32768,
];
const CASES: u64 = 1_500;
const STATED: usize = 228;

fn given(pending: u64, parked: u64, terms: u64) -> Given {
    Given {
        pending,
        parked,
        terms,
    }
}

fn pressed(goals: &[u16], numbers: Given, budget: u32) -> Pressed {
    let mut store = goals.to_vec();
    store.resize(1_024, 65_535);
    press(&L, &store, numbers, &[0; 5], budget, 8_192, 8_192).unwrap_or_else(|why| panic!("{why:?}"))
}

#[test]
fn a_press_cut_short_leaves_the_goals_and_adds_its_steps() {
    // Not drawn(b): the "not" and drawn(b), which takes an equation.
    let goal = [5, 1, 1, 16387, 1];
    let cut = pressed(&goal, given(1, 0, 1), 2);
    assert_eq!(cut.stop, Some(Stop::Budget));
    assert_eq!((cut.outcome.steps, cut.outcome.cost), (1, 1));
    assert_eq!(cut.outcome.store_start(), goal);
    let whole = pressed(&goal, given(1, 0, 1), 3);
    assert_eq!((whole.stop, whole.outcome.steps, whole.outcome.cost), (None, 2, 3));
    assert_eq!(whole.outcome.store_start(), [3, 1, 1]);
    let answer = pressed(&[3, 1, 1], given(1, 0, 1), 1);
    assert_eq!((answer.stop, answer.outcome.answer_list()), (None, vec![3, 1, 1]));
    let nothing = pressed(&[], given(0, 0, 1), 1);
    assert_eq!((nothing.stop, nothing.outcome.steps), (Some(Stop::Finished), 0));
}

#[test]
fn a_press_asks_rights_of_all_goals() {
    // A lead, pending; then an end, parked. The end is barred, and then the lead, and then what neither reaches.
    let goals = [4, 0, 4, 0, 4_098 + 2, 0, 2, 0];
    let mut store = goals.to_vec();
    store.resize(1_024, 0);
    let refused = |numbers: Given, bars: &[u16]| {
        let one = press(&L, &store, numbers, bars, 9, 8_192, 8_192);
        one.map_or_else(|why| why.number(), |pressed| pressed.number())
    };
    assert_eq!(refused(given(1, 1, 0), &[0; 5]), 4);
    for barred in [2, 3, 4] {
        let mut bars = [0; 5];
        bars[barred] = 1;
        assert_eq!(refused(given(1, 1, 0), &bars), 16, "{barred}");
        assert_eq!(refused(given(0, 0, 0), &bars), 0, "{barred}");
    }
    for wrong in [&[0, 0, 0, 0][..], &[0; 6], &[1, 0, 0, 0, 0], &[0, 0, 0, 0, 2]] {
        assert_eq!(refused(given(1, 1, 0), wrong), 15, "{wrong:?}");
        assert_eq!(refused(given(0, 0, 0), wrong), 15, "{wrong:?}");
    }
    // Drawn alone is barred: an end does not lead there.
    let mut end = [4, 0, 2, 0].to_vec();
    end.resize(1_024, 0);
    let one = press(&L, &end, given(1, 0, 0), &[0, 0, 0, 1, 0], 9, 8_192, 8_192);
    assert_eq!(one.map_or_else(|why| why.number(), |pressed| pressed.number()), 4);
}

#[test]
fn a_press_is_a_run_of_just_its_cost() {
    let mut compared = 0;
    for seed in 0..3_000 {
        let case = carry_case(seed);
        let Ok(one) = press(&case.deck, &case.store, case.given, &case.bars, case.budget, case.answer_words, 8_192) else {
            continue;
        };
        if one.stop.is_some() {
            continue;
        }
        let run = carry_on(&case.deck, &case.store, case.given, &case.bars, one.outcome.cost, case.answer_words, 8_192)
            .unwrap_or_else(|why| panic!("{why:?}"));
        assert_eq!(run.steps, one.outcome.steps, "{}", case.name);
        assert_eq!(run.cost, one.outcome.cost, "{}", case.name);
        assert_eq!(run.answer_list(), one.outcome.answer_list(), "{}", case.name);
        assert_eq!(run.store_start(), one.outcome.store_start(), "{}", case.name);
        compared += 1;
    }
    assert!(compared > 500, "{compared}");
}

#[test]
fn presses_one_after_another_are_the_run() {
    for seed in 0..150 {
        let case = carry_case(seed);
        // Room for the answers of all presses.
        let Ok(run) = carry_on(&case.deck, &case.store, case.given, &case.bars, 3_000, 1_000_000, 8_192) else {
            continue;
        };
        let (mut store, mut numbers) = (case.store.clone(), case.given);
        let (mut answers, mut steps) = (Vec::new(), 0);
        let mut left = 3_000;
        let stop = loop {
            let one = press(&case.deck, &store, numbers, &case.bars, left, 8_192, 8_192).unwrap_or_else(|why| panic!("{why:?}"));
            (left, steps) = (left - one.outcome.cost, steps + one.outcome.steps);
            answers.extend(one.outcome.answer_list());
            let start = one.outcome.store_start();
            store[..start.len()].copy_from_slice(&start);
            numbers.pending = one.outcome.pending.len() as u64;
            numbers.parked = one.outcome.parked.len() as u64;
            if let Some(stop) = one.stop {
                break stop;
            }
        };
        assert_eq!((stop, steps, 3_000 - left), (run.stop, run.steps, run.cost), "{}", case.name);
        assert_eq!(answers, run.answer_list(), "{}", case.name);
        assert_eq!(store[..run.store_start().len()], run.store_start(), "{}", case.name);
    }
}

fn stated() -> Vec<(PressCase, second::press::vectors::Expected)> {
    let path = concat!(env!("CARGO_MANIFEST_DIR"), "/../vectors/press.txt");
    let text = std::fs::read_to_string(path).expect("the file of presses");
    parse(&text).expect("the file reads")
}

#[test]
fn all_stated_presses_agree() {
    let cases = stated();
    assert_eq!(cases.len(), STATED);
    for (case, expected) in &cases {
        assert_eq!(&result(case), expected, "{}", case.name);
    }
}

#[test]
fn a_printed_case_reads_to_itself() {
    for (case, expected) in stated() {
        let printed = print(&case, &expected);
        assert_eq!(parse(&printed).expect("the print reads"), [(case, expected)], "{printed}");
    }
}

#[test]
fn counts_stay_at_their_greatest_value() {
    let full = Record {
        steps: u64::MAX,
        cost: u64::MAX - 2,
        answers: 7,
        pending: 1,
        parked: 0,
    };
    let one = pressed(&[5, 1, 1, 16387, 1], given(1, 0, 1), 3);
    let after = full.after(&one.outcome);
    assert_eq!((after.steps, after.cost, after.answers), (u64::MAX, u64::MAX, 7));
}

fn compared(engine: &dyn Engine) -> Result<Comparison<'_>, String> {
    let mut comparison = Comparison::new(engine);
    (0..CASES).try_for_each(|seed| comparison.random(seed))?;
    Ok(comparison)
}

#[test]
fn no_slip_no_failure_and_everything_is_reached() {
    let comparison = compared(&Second).unwrap_or_else(|what| panic!("{what}"));
    let calls = comparison.calls;
    let reached = together(vec![comparison.reached]).expect("everything is reached");
    println!("{calls} presses: {reached:#?}");
}

#[test]
fn slips_are_found() {
    for slip in &SLIPS {
        match compared(slip) {
            Ok(_) => panic!("not found: {}", slip.name),
            Err(what) => println!("{}:\n{what}\n", slip.name),
        }
    }
}
