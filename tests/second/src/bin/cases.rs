//! Prints cases with their results in the form of the file of runs.
//!
//! `cases [first seed] [cases]`

use second::random::case;
use second::vectors::{print, result};

fn main() {
    let mut arguments = std::env::args().skip(1);
    let mut number = |otherwise: u64| {
        let argument = arguments.next();
        argument.map_or(otherwise, |text| text.parse().expect("a number"))
    };
    let (first, cases) = (number(0), number(1));
    for seed in first..first + cases {
        let case = case(seed);
        println!("{}", print(&case, &result(&case)));
    }
}
