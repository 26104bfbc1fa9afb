//! Runs files of runs again and names the cases that come out differently.
//!
//! `replay FILE ...`

use second::vectors::{parse, result};

fn main() {
    let mut different = 0;
    let mut all = 0;
    for path in std::env::args().skip(1) {
        let text = std::fs::read_to_string(&path).expect("a file of runs");
        for (case, expected) in parse(&text).expect("the form of the file of runs") {
            all += 1;
            if result(&case) != expected {
                different += 1;
                println!("{}", case.name);
            }
        }
    }
    println!("{different} of {all} differ");
    std::process::exit((different > 0) as i32);
}
