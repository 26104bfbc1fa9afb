//! The comparison finds faults, and the shrinker makes them small.

use second::judge::{judge, Engine, Lent, Report, Second};
use second::random::case;
use second::shrink::shrink;
use second::Case;

/// This evaluator with one fault put in after each run.
struct Faulty {
    fault: fn(&mut Lent<'_>, &mut Report, u32) -> u32,
}

impl Engine for Faulty {
    fn open(&self, deck: &[u16]) -> u32 {
        Second.open(deck)
    }

    fn check(&self, deck: &[u16], query: &[u16]) -> u32 {
        Second.check(deck, query)
    }

    fn run(
        &self,
        deck: &[u16],
        query: &[u16],
        bars: &[u16],
        budget: u32,
        lent: Lent<'_>,
        report: &mut Report,
    ) -> u32 {
        let mut lent = lent;
        let again = Lent {
            answers: &mut *lent.answers,
            store: &mut *lent.store,
            scratch: &mut *lent.scratch,
        };
        let number = Second.run(deck, query, bars, budget, again, report);
        (self.fault)(&mut lent, report, number)
    }
}

fn first_failure(engine: &dyn Engine) -> Option<Case> {
    (0..2_000)
        .map(case)
        .find(|case| judge(engine, case).is_err())
}

#[test]
fn no_fault_no_failure() {
    for seed in 0..2_000 {
        assert_eq!(judge(&Second, &case(seed)), Ok(()), "seed {seed}");
    }
}

#[test]
fn faults_are_found() {
    let faults: [fn(&mut Lent<'_>, &mut Report, u32) -> u32; 6] = [
        |_, report, number| {
            report.steps += (report.answers > 1) as u32;
            number
        },
        |_, report, number| {
            report.stop = report.stop.min(2);
            number
        },
        |lent, _, number| {
            if let Some(last) = lent.answers.last_mut() {
                *last ^= 1;
            }
            number
        },
        |lent, _, number| {
            if number == 9 {
                lent.store[0] ^= 1;
            }
            number
        },
        |lent, report, number| {
            if report.parked > 0 {
                lent.store[0] ^= 4_096;
            }
            number
        },
        |_, _, number| if number == 9 { 8 } else { number },
    ];
    for (at, fault) in faults.into_iter().enumerate() {
        assert!(first_failure(&Faulty { fault }).is_some(), "fault {at}");
    }
}

#[test]
fn failures_shrink() {
    let engine = Faulty {
        fault: |lent, report, number| {
            let undecided =
                report.pending == 0 && lent.store.first().is_some_and(|word| word / 4_096 == 2);
            report.parked -= (report.parked > 0 && undecided) as u32;
            number
        },
    };
    let fails = |case: &Case| judge(&engine, case).is_err();
    // A row of "nots", each about the next, gets no smaller one by one.
    let found = (0..2_000).map(case);
    let found = found
        .filter(|case| !case.name.starts_with("chain"))
        .find(fails);
    let found = found.expect("a case with an undecided goal");
    let small = shrink(found, &fails);
    assert!(fails(&small));
    assert!(small.deck.len() <= 24, "{small:?}");
    assert!(small.query.len() <= 2, "{small:?}");
    // The longest way to a parked goal in so few words is a circle of "nots": 33 of them, and 33 steps of an equation each.
    assert!(small.budget <= 99, "{small:?}");
}
