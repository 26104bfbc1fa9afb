//! The comparison of random cases finds slips in the checks of loose variables.

use second::judge::judge;
use second::loose::slips::SLIPS;
use second::random::case;

const CASES: u64 = 8_000;

#[test]
fn slips_are_found() {
    let mut left: Vec<_> = SLIPS.iter().collect();
    for seed in 0..CASES {
        let case = case(seed);
        left.retain(|slip| match judge(*slip, &case) {
            Ok(()) => true,
            Err(what) => {
                println!("{}: {}, {what}", slip.name, case.name);
                false
            }
        });
        if left.is_empty() {
            return;
        }
    }
    let names: Vec<_> = left.iter().map(|slip| slip.name).collect();
    panic!("not found: {names:?}");
}
