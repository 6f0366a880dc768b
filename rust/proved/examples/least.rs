//! Shows the smallest state that each of some rules holds of, or that none up to 6 bytes does.
//!
//! `cargo run --example least`

use interface::{Language, Library, Word, EXAMPLE_LIMIT};
use notation::Symbols;
use proved::Proved;

fn main() -> Result<(), notation::Error> {
    let symbols = Symbols::parse("open shut held row/2 gates/*")?;
    let language = Language::simple(symbols.table());
    for text in ["gates(@0, !open, @1)", "row(?0, gates(?0, !?0))", "row(?0, gates(!?1, ?0))"] {
        let rule = symbols.pattern(text)?;
        let (written, state) = Proved.least(language, &rule, EXAMPLE_LIMIT as u32, 100_000);
        match written.word() {
            Some(Word::Bound) => {
                println!("{text}: {}, count {}", symbols.show_term(&state)?, written.count)
            }
            word => println!("{text}: {}", word.map_or("?", Word::text)),
        }
    }
    Ok(())
}
