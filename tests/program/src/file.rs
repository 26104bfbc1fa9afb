//! The files of the program crate that runs the cases: what it reads, in the
//! form that its source states, and what it must write.

use crate::Inputs;

pub const CASES: &str = concat!(env!("CARGO_MANIFEST_DIR"), "/../../crates/leads_cases/data/cases");
pub const STDOUT: &str = concat!(env!("CARGO_MANIFEST_DIR"), "/../../crates/leads_cases/stdout");

pub fn cases(list: &[Inputs]) -> Vec<u8> {
    let mut file = number(list.len()).to_vec();
    for inputs in list {
        let line = line(inputs);
        file.extend(number(line.len()));
        file.extend(line.as_bytes());
        file.extend(number(inputs.deck.is_some() as usize));
        file.extend(input(inputs.deck.as_deref().unwrap_or_default()));
        file.extend(input(&inputs.query));
    }
    file
}

/// The listings are those of the second evaluator.
pub fn stdout(list: &[Inputs]) -> Vec<u8> {
    let mut text = Vec::new();
    for inputs in list {
        text.extend(line(inputs).as_bytes());
        text.extend(inputs.listing());
    }
    text
}

fn line(inputs: &Inputs) -> String {
    format!("-- {}\n", inputs.name)
}

fn number(number: usize) -> [u8; 2] {
    u16::try_from(number).expect("16 bits").to_le_bytes()
}

/// Zeros at the end are not given.
fn input(bytes: &[u8]) -> Vec<u8> {
    let last = bytes.iter().rposition(|byte| *byte != 0);
    let given = &bytes[..last.map_or(0, |last| last + 1)];
    [&number(bytes.len())[..], &number(given.len()), given].concat()
}
