//! The generator: the same cases each time, and everything reached.

use second::random::{case, program_case};
use second::rights::no_bars;
use second::{Case, Outcome, Stop};
use std::collections::BTreeSet;

#[test]
fn same_seed_same_case() {
    for seed in [0, 1, 77, 4_000, u64::MAX] {
        assert_eq!(case(seed), case(seed));
        assert_eq!(program_case(seed), program_case(seed));
    }
}

#[test]
fn everything_is_reached() {
    let mut reached = BTreeSet::new();
    for seed in 0..3_000 {
        let case = case(seed);
        let second = case.deck.first() == Some(&2);
        match case.run() {
            Err(number) => {
                reached.insert(format!("refused {number}"));
                reached.extend(second.then(|| format!("format 2: refused {number}")));
            }
            Ok(outcome) => {
                note(&outcome, &mut reached);
                reached.extend(second.then(|| format!("format 2: stop {:?}", outcome.stop)));
            }
        }
    }
    let refusals = (1..=9).chain(13..=16).map(|number| format!("refused {number}"));
    let stops = [Stop::Finished, Stop::Budget, Stop::Answers, Stop::Store];
    let stops = stops.map(|stop| format!("stop {stop:?}"));
    let mut wanted: BTreeSet<String> = refusals.chain(stops).collect();
    let second: Vec<String> = wanted.iter().map(|what| format!("format 2: {what}")).collect();
    wanted.extend(second);
    for mark in ["2 0", "3 0", "2 deeper", "3 deeper", "4 deeper"] {
        wanted.insert(format!("mark {mark}"));
    }
    for level in [1, 2, 31, 32] {
        wanted.insert(format!("level {level}"));
    }
    // Nothing is parked with mark 1 on any level.
    assert_eq!(reached, wanted);
}

/// None of the answers has a variable.
#[test]
fn answers_are_without_variables() {
    let mut answers = 0;
    for seed in 0..3_000 {
        let listed = case(seed)
            .run()
            .map_or(Vec::new(), |outcome| outcome.answers);
        for answer in listed {
            assert!(answer[2..].iter().all(|cell| *cell < 32_768), "seed {seed}");
            answers += 1;
        }
    }
    assert!(answers > 1_000, "{answers}");
}

/// Of those that are not damaged most run, whatever is barred; of those with variables made loose few do.
#[test]
fn most_cases_are_tight() {
    let whole: Vec<Case> = (0..3_000)
        .map(case)
        .filter(|case| !case.name.contains("damaged"))
        .map(|case| Case {
            bars: no_bars(&case.deck),
            ..case
        })
        .collect();
    let ran = |cases: &[&Case]| cases.iter().filter(|case| case.run().is_ok()).count();
    let (loose, tight): (Vec<&Case>, Vec<&Case>) = whole
        .iter()
        .partition(|case| case.name.ends_with("loose") || case.name.ends_with("asmade"));
    // Of many variables there are at times too many cells for a clause.
    let refused = tight.iter().filter(|case| case.run().is_err());
    let refused: Vec<&String> = refused.map(|case| &case.name).collect();
    assert!(
        refused.len() < 10 && refused.iter().all(|name| name.starts_with("many")),
        "{refused:?}"
    );
    assert!(
        10 * tight.len() > 7 * whole.len(),
        "{} of {}",
        tight.len(),
        whole.len()
    );
    assert!(
        loose.len() > 300 && 3 * ran(&loose) < loose.len(),
        "{} of {}",
        ran(&loose),
        loose.len()
    );
}

fn note(outcome: &Outcome, reached: &mut BTreeSet<String>) {
    reached.insert(format!("stop {:?}", outcome.stop));
    if [1, 2, 31, 32].contains(&outcome.watch.deepest) {
        reached.insert(format!("level {}", outcome.watch.deepest));
    }
    for mark in 1..5 {
        if outcome.watch.parked[mark] > 0 {
            reached.insert(format!("mark {mark} 0"));
        }
        if outcome.watch.parked_deeper[mark] > 0 {
            reached.insert(format!("mark {mark} deeper"));
        }
    }
}

#[test]
fn listings_of_random_cases() {
    for seed in 0..150 {
        let (deck, query) = program_case(seed);
        let text = second::program(deck.as_deref(), &query);
        let text = String::from_utf8(text).expect("plain text");
        let first = text.lines().next().expect("a line");
        let known = first.starts_with("refused ") || ["all", "no", "open"].contains(&first);
        assert!(known && text.ends_with('\n'), "seed {seed}: {first}");
    }
}
