//! Matches a rule against states that spell one thing in two ways.
//!
//! `cargo run --example classes`

use interface::{Language, Library, Word};
use notation::Symbols;
use proved::Proved;

fn main() -> Result<(), notation::Error> {
    let symbols = Symbols::parse("open shut held row/2 stopped=held")?;
    let rule = symbols.pattern("row(?0, ?0)")?;
    let simple = Language::simple(symbols.table());
    let up_to_class = simple.with_classes(symbols.classes());

    for text in ["row(stopped, held)", "row(shut, held)"] {
        let state = symbols.term(text)?;
        let (plain, _) = Proved.find(simple, &rule, &state, 100_000);
        let (outcome, answer) = Proved.find(up_to_class, &rule, &state, 100_000);
        let word = |word: Option<Word>| word.map_or("?", Word::text);
        println!("{text}: {}, up to class {}", word(plain.word()), word(outcome.word()));
        if let Some(part) = answer.name(0) {
            println!("?0 = {}", symbols.show_term(&state[part])?);
        }
    }
    Ok(())
}
