//! The comparison of continued runs finds slips, and reaches everything.

use second::carry::comparison::{together, Comparison};
use second::carry::judge::Engine;
use second::carry::slips::SLIPS;
use second::judge::Second;
use second::random::carries::carry_case;

const CASES: u64 = 1_000;

/// What the compare program does, in short.
fn compared(engine: &dyn Engine) -> Result<Comparison<'_>, String> {
    let mut comparison = Comparison::new(engine);
    comparison.damaged()?;
    comparison.limits()?;
    (0..CASES).try_for_each(|seed| comparison.random(seed))?;
    Ok(comparison)
}

#[test]
fn same_seed_same_case() {
    for seed in [0, 1, 77, 4_000, u64::MAX] {
        assert_eq!(carry_case(seed), carry_case(seed));
    }
}

#[test]
fn no_slip_no_failure_and_everything_is_reached() {
    let comparison = compared(&Second).unwrap_or_else(|what| panic!("{what}"));
    let calls = comparison.calls;
    let reached = together(vec![comparison.reached]).expect("everything is reached");
    println!("{calls} calls: {reached:#?}");
}

#[test]
fn slips_are_found() {
    for slip in &SLIPS {
        match compared(slip) {
            Ok(_) => panic!("not found: {}", slip.name),
            Err(what) => println!("{}:\n{what}\n", slip.name),
        }
    }
}
