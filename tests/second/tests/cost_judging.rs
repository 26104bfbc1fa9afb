//! The comparison finds slips in counting equations and in paying for steps, in fresh runs and in continued ones.

use second::carry::comparison::Comparison;
use second::cost::slips::{Continued, Slipping, AT_LARGE, SLIPS};
use second::judge::judge;
use second::random::case;
use second::rights::no_bars;
use second::{Case, Stop};

const CASES: u64 = 8_000;

fn names(slips: &[&Slipping]) -> Vec<&'static str> {
    slips.iter().map(|slip| slip.name).collect()
}

#[test]
fn slips_are_found() {
    let mut left: Vec<_> = SLIPS.iter().collect();
    for case in (0..CASES).map(case) {
        left.retain(|slip| match judge(*slip, &case) {
            Ok(()) => true,
            Err(what) => {
                println!("{}: {}, {what}", slip.name, case.name);
                false
            }
        });
        if left.is_empty() {
            return;
        }
    }
    panic!("not found: {:?}", names(&left));
}

#[test]
fn slips_are_found_in_continued_runs() {
    let mut left: Vec<_> = SLIPS.iter().collect();
    left.retain(|slip| {
        let engine = Continued(slip);
        let mut comparison = Comparison::new(&engine);
        (0..CASES / 2).all(|seed| comparison.random(seed).is_ok())
    });
    assert!(left.is_empty(), "not found: {:?}", names(&left));
}

/// A term doubled so often and set equal to itself, in a query.
fn doubled(times: u16, budget: u32) -> Case {
    let (x, end, pair, cons, equal, some) = (32_768, 0, 1, 2, 3, 4);
    let left = (0..times).chain([0]).flat_map(|at| [cons, x + at]);
    let right = (0..times).flat_map(|at| [cons, pair, x + at + 1, x + at + 1]);
    let right = right.chain([cons, x]);
    let mut query = vec![equal];
    query.extend(left.chain([end]).chain(right).chain([end]));
    second::world::renumber(&mut query);
    let world = second::world::World {
        symbols: vec![0, 2, 2, 258, 257],
        clauses: vec![vec![equal, x, x, some, x]],
        query: query.clone(),
        ..second::world::World::default()
    };
    let deck = world.deck();
    let name = format!("{times} doublings");
    let (answer_words, store_words, scratch_words) = (8_192, 16_384, 8_192);
    Case {
        name,
        bars: no_bars(&deck),
        deck,
        query,
        budget,
        answer_words,
        store_words,
        scratch_words,
    }
}

/// The engine is not held against these: it would walk them all.
#[test]
fn slips_at_large_costs_are_found() {
    let [wraps, cut] = &AT_LARGE;
    assert!(judge(wraps, &doubled(60, u32::MAX)).is_err());
    assert!(judge(cut, &doubled(16, 1_000_000)).is_err());
}

/// A chain of n, one after another: 2n + 2 equations, and the term of 2^(n+1) - 1 cells with itself.
#[test]
fn doublings_cost_all_their_cells() {
    for times in [1, 2, 3, 10, 20, 30, 31, 32, 60, 70] {
        let cost = (1u128 << (times + 1)) + 2 * times as u128 + 3;
        for budget in [
            0,
            1,
            100,
            100_000,
            u32::MAX,
            cost.min(1 << 32) as u32,
            (cost - 1).min(1 << 32) as u32,
        ] {
            let outcome = doubled(times, budget).run().expect("accepted");
            let paid = outcome.watch.costs.first().map(|cost| *cost as u128);
            let expected = Some(cost).filter(|cost| *cost <= budget as u128);
            assert_eq!(paid, expected, "{times} {budget}");
            assert_eq!(
                (outcome.stop, outcome.cost).eq(&(Stop::Budget, 0)),
                paid.is_none()
            );
        }
    }
}
