//! Writes what `crates/leads_cases` reads and what it must write.

use program::{cases, file};

fn main() -> std::io::Result<()> {
    let list: Vec<_> = cases::all().into_iter().map(|case| case.inputs).collect();
    std::fs::write(file::CASES, file::cases(&list))?;
    std::fs::write(file::STDOUT, file::stdout(&list))
}
