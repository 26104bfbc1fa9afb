//! Writes what `crates/text_cases` reads and what it must write.

use program::texts;

fn main() -> std::io::Result<()> {
    let list = texts::all();
    std::fs::write(texts::CASES, texts::cases(&list))?;
    std::fs::write(texts::STDOUT, texts::stdout(&list))
}
