//! `compare_drill [cases] [first seed]`: drill terms, the engine against the second evaluator: the vectors, small lists after every
//! term in lists of every length, 4,096 symbols, then random cases. A difference ends it, with the case.

use compare::Leads;
use second::drill::comparison::{missing, Comparison};
use std::time::Instant;

fn main() {
    let mut arguments = std::env::args().skip(1);
    let mut number = |otherwise: u64| {
        let argument = arguments.next();
        argument.map_or(otherwise, |text| text.parse().expect("a number"))
    };
    let (cases, first) = (number(100_000), number(0));
    let start = Instant::now();
    let mut comparison = Comparison::new(&Leads);
    let all = compared(&mut comparison, first, cases);
    let stated = all.unwrap_or_else(|what| fail(&what));
    let reached = comparison.reached;
    if !missing(&reached).is_empty() {
        fail(&format!("not reached: {:?}", missing(&reached)));
    }
    let calls: usize = reached.values().sum();
    println!("{calls} calls for drill terms agree, {stated} of them stated, {cases} random, {:.0?}: {reached:?}", start.elapsed());
}

fn compared(comparison: &mut Comparison<'_>, first: u64, cases: u64) -> Result<usize, String> {
    let file = concat!(env!("CARGO_MANIFEST_DIR"), "/../vectors/drill.txt");
    let stated = comparison.vectors(&std::fs::read_to_string(file).expect("the vectors"))?;
    comparison.whole()?;
    comparison.large()?;
    (first..first + cases).try_for_each(|seed| comparison.random(seed))?;
    Ok(stated)
}

fn fail(what: &str) -> ! {
    println!("{what}");
    std::process::exit(1)
}
