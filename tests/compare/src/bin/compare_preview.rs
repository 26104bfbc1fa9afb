//! `compare_preview [cases] [first seed]`: a query as if a clause were added, the engine against the second evaluator: the vectors, deck L and
//! its clauses damaged everywhere, the longest copies and clauses, then random ones. A difference ends it, with the case.

use compare::Leads;
use second::preview::comparison::{together, Comparison, Reached};
use std::time::Instant;

fn main() {
    let mut arguments = std::env::args().skip(1);
    let mut number = |otherwise: u64| {
        let argument = arguments.next();
        argument.map_or(otherwise, |text| text.parse().expect("a number"))
    };
    let (cases, first) = (number(100_000), number(0));
    let start = Instant::now();
    let halves = std::thread::scope(|scope| {
        let halves = [0, 1].map(|odd| scope.spawn(move || half(odd, first, cases)));
        halves.map(|half| half.join().expect("a half that ends").unwrap_or_else(|what| fail(&what)))
    });
    let calls: usize = halves.iter().map(|(calls, _)| calls).sum();
    let all = halves.map(|(_, reached)| reached).to_vec();
    let reached = together(all).unwrap_or_else(|what| fail(&what));
    println!("{calls} previews agree, from {cases} random seeds among them, {:.0?}: {reached:?}", start.elapsed());
}

/// Of all cases, every second one.
fn half(odd: u64, first: u64, cases: u64) -> Result<(usize, Reached), String> {
    let mut comparison = Comparison::new(&Leads);
    if odd == 0 {
        let file = concat!(env!("CARGO_MANIFEST_DIR"), "/../vectors/preview.txt");
        comparison.vectors(&std::fs::read_to_string(file).expect("the vectors"))?;
        comparison.damaged()?;
    } else {
        comparison.limits()?;
    }
    (first + odd..first + cases).step_by(2).try_for_each(|seed| comparison.random(seed))?;
    Ok((comparison.calls, comparison.reached))
}

fn fail(what: &str) -> ! {
    println!("{what}");
    std::process::exit(1)
}
