//! `compare_press [cases] [first seed]`: presses, the engine against the second evaluator: the stated ones, then random stores, and lists of presses
//! from fresh queries. A difference ends it, with the case.

use compare::Leads;
use second::press::comparison::{together, Comparison, Reached};
use std::time::Instant;

fn main() {
    let mut arguments = std::env::args().skip(1);
    let mut number = |otherwise: u64| {
        let argument = arguments.next();
        argument.map_or(otherwise, |text| text.parse().expect("a number"))
    };
    let (cases, first) = (number(10_000), number(0));
    let start = Instant::now();
    let halves = std::thread::scope(|scope| {
        let halves = [0, 1].map(|odd| scope.spawn(move || half(odd, first, cases)));
        halves.map(|half| half.join().expect("a half that ends").unwrap_or_else(|what| fail(&what)))
    });
    let calls: usize = halves.iter().map(|(calls, _)| calls).sum();
    let all = halves.map(|(_, reached)| reached).to_vec();
    let reached = together(all).unwrap_or_else(|what| fail(&what));
    println!("{calls} presses agree, from {cases} random seeds among them, {:.0?}: {reached:?}", start.elapsed());
}

/// Of all cases, every second one.
fn half(odd: u64, first: u64, cases: u64) -> Result<(usize, Reached), String> {
    let mut comparison = Comparison::new(&Leads);
    if odd == 0 {
        comparison.vectors(&vectors())?;
    }
    (first + odd..first + cases).step_by(2).try_for_each(|seed| comparison.random(seed))?;
    Ok((comparison.calls, comparison.reached))
}

fn vectors() -> String {
    let path = concat!(env!("CARGO_MANIFEST_DIR"), "/../vectors/press.txt");
    std::fs::read_to_string(path).expect("the vectors")
}

fn fail(what: &str) -> ! {
    println!("{what}");
    std::process::exit(1)
}
