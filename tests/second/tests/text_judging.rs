//! The comparison of texts finds slips, and reaches everything.

use second::random::texts::{read_case, write_case};
use second::text::comparison::{together, Comparison, SHORT};
use second::text::judge::{Engine, Second};
use second::text::slips::SLIPS;

const CASES: u64 = 3_000;

/// What the compare program does, in short.
fn compared(engine: &dyn Engine) -> Result<Comparison<'_>, String> {
    let mut comparison = Comparison::new(engine);
    (0..CASES).try_for_each(|seed| comparison.random(seed))?;
    SHORT.iter().try_for_each(|text| comparison.damaged(text))?;
    comparison.limits()?;
    Ok(comparison)
}

#[test]
fn same_seed_same_case() {
    for seed in [0, 1, 77, 4_000, u64::MAX] {
        assert_eq!(read_case(seed), read_case(seed));
        assert_eq!(write_case(seed), write_case(seed));
    }
}

#[test]
fn no_slip_no_failure_and_everything_is_reached() {
    let comparison = compared(&Second).unwrap_or_else(|what| panic!("{what}"));
    let reached = together(vec![comparison.reached]).expect("everything is reached");
    println!("{reached:#?}");
}

#[test]
fn slips_are_found() {
    for slip in &SLIPS {
        match compared(slip) {
            Ok(_) => panic!("not found: {}", slip.name),
            Err(what) => println!("{}:\n{what}\n", slip.name),
        }
    }
}
