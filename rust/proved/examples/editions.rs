//! Matches a state with a list within a list in both editions.
//!
//! `cargo run --example editions`

use interface::{Edition, Library, Word, RECORD_LIMIT};
use notation::Symbols;
use proved::Proved;

fn main() -> Result<(), notation::Error> {
    let symbols = Symbols::parse("open shut gates/*")?;
    let rule = symbols.pattern("gates(?0, @0)")?;
    let state = symbols.term("gates(gates(open, shut), shut)")?;

    // Edition 2 takes what is spliced, and nothing else.
    let language = symbols.language(Edition::TWO);
    let (refused, _) = Proved.find(language, &rule, &state, 100_000);
    println!("in edition 2 refused {}", refused.number);
    let mut output = [0; RECORD_LIMIT];
    let written = Proved.splice_record(language, &state, &mut output);
    let spliced = &output[..written.count as usize];

    for (edition, state) in [(Edition::ONE, &state[..]), (Edition::TWO, spliced)] {
        let language = symbols.language(edition);
        let (outcome, answer) = Proved.find(language, &rule, state, 100_000);
        let word = outcome.word().map_or("?", Word::text);
        println!("in edition {}: {word} on {}", edition.0, symbols.show_term(state)?);
        if let Some(part) = answer.name(0) {
            println!("?0 = {}", symbols.show_term(&state[part])?);
        }
    }
    Ok(())
}
