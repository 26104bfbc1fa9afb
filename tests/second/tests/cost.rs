//! What budgets do: the cost of a run is just enough for it. Random cases reach every way in which a step cannot be paid.

use second::rights::no_bars;
use second::random::case;
use second::world::World;
use second::{Case, Outcome, Stop};
use std::collections::BTreeSet;

fn with(case: &Case, budget: u32) -> Outcome {
    let case = Case {
        budget,
        ..case.clone()
    };
    case.run().expect("accepted as before")
}

fn same(one: &Outcome, other: &Outcome) -> bool {
    let fields = |outcome: &Outcome| (outcome.stop, outcome.steps, outcome.cost);
    fields(one) == fields(other)
        && one.answers == other.answers
        && one.store_start() == other.store_start()
}

/// Steps are at most the cost, and the cost is at most the budget; what a run cost is enough for it, and one less is not.
#[test]
fn a_runs_cost_is_just_enough() {
    let mut reached = BTreeSet::new();
    for case in (0..3_000).map(case) {
        let Ok(outcome) = case.run() else {
            continue;
        };
        assert!(
            outcome.steps <= outcome.cost && outcome.cost <= case.budget,
            "{}",
            case.name
        );
        let full = matches!(outcome.stop, Stop::Answers | Stop::Store);
        assert!(
            full || same(&with(&case, outcome.cost), &outcome),
            "{}",
            case.name
        );
        if outcome.cost > 0 {
            let short = with(&case, outcome.cost - 1);
            assert_eq!(short.stop, Stop::Budget, "{}", case.name);
            assert_eq!(short.steps + 1, outcome.steps, "{}", case.name);
        }
        note(&case, &outcome, &mut reached);
    }
    let wanted = [
        "just enough",
        "nothing left",
        "one short",
        "several short",
        "the first equation is too much",
        "broken off after 100 equations",
        "an oversized goal not paid",
        "an inner level cannot pay",
        "the greatest budget",
        "the greatest budget but one",
    ];
    assert_eq!(reached, wanted.into());
}

fn note(case: &Case, outcome: &Outcome, reached: &mut BTreeSet<&'static str>) {
    let watch = &outcome.watch;
    let budget = outcome.stop == Stop::Budget;
    let unpaid = budget && watch.left > 0;
    let moves = |more: u32| with(case, case.budget + more).steps > outcome.steps;
    let labels = [
        (!budget && outcome.cost == case.budget, "just enough"),
        (budget && watch.left == 0, "nothing left"),
        (unpaid && moves(1), "one short"),
        (unpaid && !moves(1) && moves(20), "several short"),
        (unpaid && watch.left == 1, "the first equation is too much"),
        (unpaid && watch.left > 101, "broken off after 100 equations"),
        (unpaid && watch.unpaid.get(), "an oversized goal not paid"),
        (unpaid && watch.cut > 0, "an inner level cannot pay"),
        (case.budget == u32::MAX, "the greatest budget"),
        (case.budget == u32::MAX - 1, "the greatest budget but one"),
    ];
    reached.extend(labels.iter().filter(|(so, _)| *so).map(|(_, label)| label));
}

/// p(c0), .. p(c39) and on again from p(c0), p the symbol 40. From 65 facts on those with the numbers 0, 16 and 32 are tried.
#[test]
fn facts_are_matched_one_by_one() {
    for (facts, tried) in [(1u16, 1), (2, 2), (40, 40), (64, 64), (65, 5), (1_000, 75)] {
        let clauses = (0..facts).map(|at| vec![40, at % 40]).collect();
        let symbols = [vec![0; 40], vec![257]].concat();
        let world = World {
            symbols,
            clauses,
            query: vec![40, 0],
            ..World::default()
        };
        let deck = world.deck();
        let outcome =
            second::run(&deck, &world.query, &no_bars(&deck), 100_000, 8_192, 16_384, 8_192).expect("accepted");
        let found = facts.div_ceil(40) as u32;
        assert_eq!(
            (outcome.steps, outcome.cost),
            (1 + found, 1 + tried + found)
        );
    }
}
