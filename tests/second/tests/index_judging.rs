//! The comparison finds slips in the choice of the clauses that are tried: in stated runs, in random ones, and in continued ones.

use second::carry::comparison::Comparison;
use second::cost::slips::{Continued, Slipping};
use second::index::slips::SLIPS;
use second::judge::judge;
use second::random::case;
use second::vectors::parse;
use second::Case;

const CASES: u64 = 8_000;

/// Those that no case finds.
fn unfound(cases: impl Iterator<Item = Case>) -> Vec<&'static str> {
    let mut left: Vec<&Slipping> = SLIPS.iter().collect();
    for case in cases {
        left.retain(|slip| match judge(*slip, &case) {
            Ok(()) => true,
            Err(what) => {
                println!("{}: {}, {what}", slip.name, case.name);
                false
            }
        });
        if left.is_empty() {
            break;
        }
    }
    left.iter().map(|slip| slip.name).collect()
}

#[test]
fn slips_are_found() {
    assert_eq!(unfound((0..CASES).map(case)), [""; 0]);
}

/// The stated runs are of another hand, and find all but these.
#[test]
fn stated_runs_find_most() {
    let path = concat!(env!("CARGO_MANIFEST_DIR"), "/../vectors/runs.txt");
    let text = std::fs::read_to_string(path).expect("the file of runs");
    let runs = parse(&text).expect("the file reads");
    let left = unfound(runs.into_iter().map(|(case, _)| case));
    let others = [
        "a variable head not in row 15",
        "rows by a number's value",
        "an empty row stands for all",
    ];
    assert_eq!(left, others);
}

#[test]
fn slips_are_found_in_continued_runs() {
    let mut left: Vec<_> = SLIPS.iter().collect();
    left.retain(|slip| {
        let engine = Continued(slip);
        let mut comparison = Comparison::new(&engine);
        (0..CASES / 2).all(|seed| comparison.random(seed).is_ok())
    });
    let names: Vec<_> = left.iter().map(|slip| slip.name).collect();
    assert_eq!(names, [""; 0]);
}
