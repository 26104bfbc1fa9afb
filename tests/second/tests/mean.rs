//! The sum and the mean of a column: what request U10 says, the stated results, and that the comparison finds slips.

use second::mean::comparison::{together, Comparison};
use second::mean::judge::{Engine, Second};
use second::mean::slips::{Touches, SLIPS};
use second::mean::{mean, vectors, Column, Mean, Refused};
use second::random::means::mean_case;

const CASES: u64 = 3_000;

/// What the compare program does, in short.
fn compared(engine: &dyn Engine) -> Result<Comparison<'_>, String> {
    let mut comparison = Comparison::new(engine);
    (0..CASES).try_for_each(|seed| comparison.random(seed))?;
    comparison.damaged()?;
    comparison.limits()?;
    Ok(comparison)
}

/// Numbers of these values and a constant. The list's entries are the numbers at these places.
fn of(values: &[i16], entries: &[u16]) -> Result<Mean, u32> {
    let symbols = values.len() as u16 + 1;
    let end = 8 + 2 * symbols;
    let mut deck = vec![2, symbols, 8, 0, end, 0, end, end];
    deck.extend(values.iter().flat_map(|value| [512, *value as u16]));
    deck.extend([0, 0]);
    let list: Vec<u16> = entries.iter().flat_map(|entry| [3, 1, *entry]).collect();
    let asked = Column { count: entries.len() as u64, terms: 1, column: 0 };
    mean(&deck, &list, asked).map_err(Refused::number)
}

#[test]
fn rounded_down() {
    let of_parts = |sum, whole, remainder| Ok(Mean { sum, whole, remainder });
    assert_eq!(of(&[-3, -4], &[0, 1]), of_parts(-7, -4, 1));
    assert_eq!(of(&[3, 4], &[0, 1]), of_parts(7, 3, 1));
    assert_eq!(of(&[-3, 4], &[0, 1, 0]), of_parts(-2, -1, 1));
    assert_eq!(of(&[-3], &[0, 0, 0]), of_parts(-9, -3, 0));
    assert_eq!(of(&[0], &[0]), of_parts(0, 0, 0));
    let most = [0; 65_535];
    assert_eq!(of(&[i16::MIN], &most), of_parts(-2_147_450_880, -32_768, 0));
    assert_eq!(of(&[i16::MAX], &most), of_parts(2_147_385_345, 32_767, 0));
    let last = [&most[1..], &[1]].concat();
    assert_eq!(of(&[0, -1], &last), of_parts(-1, -1, 65_534));
    assert_eq!(of(&[7], &[]), Err(17));
    assert_eq!(of(&[7], &[0; 65_536]), Err(17));
    assert_eq!(of(&[7], &[0, 1]), Err(18));
    assert_eq!(of(&[7], &[0, 2]), Err(17));
    assert_eq!(of(&[7], &[1, 2]), Err(17));
    assert_eq!(of(&[7], &[32_768]), Err(18));
    assert_eq!(of(&[7], &[32_769]), Err(17));
    assert_eq!(of(&[7, 7], &[3]), Err(2));
}

#[test]
fn the_stated_results() {
    let text = include_str!("../../vectors/mean.txt");
    let cases = vectors::parse(text).expect("the file reads");
    assert_eq!(cases.len(), 300);
    for (case, expected) in &cases {
        assert_eq!(&vectors::result(case), expected, "{}", case.name);
    }
}

#[test]
fn same_seed_same_case() {
    for seed in [0, 1, 77, u64::MAX] {
        assert_eq!(mean_case(seed), mean_case(seed));
    }
}

#[test]
fn no_slip_no_failure_and_everything_is_reached() {
    let comparison = compared(&Second).unwrap_or_else(|what| panic!("{what}"));
    let reached = together(vec![comparison.reached]).expect("everything is reached");
    println!("{reached:#?}");
}

#[test]
fn slips_are_found() {
    for slip in &SLIPS {
        match compared(slip) {
            Ok(_) => panic!("not found: {}", slip.name),
            Err(what) => println!("{}: {}\n", slip.name, what.lines().last().unwrap_or_default()),
        }
    }
    assert!(compared(&Touches).is_err(), "not found: a refusal tells a sum");
}
