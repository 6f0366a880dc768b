//! Matches one rule against one state and shows what its names stand for.
//!
//! `cargo run --example match_one`

use interface::{Language, Library};
use notation::Symbols;
use proved::Proved;

fn main() -> Result<(), notation::Error> {
    let symbols = Symbols::parse("open shut held gate/1 row/2 gates/*")?;
    let rule = symbols.pattern("gates(@0, !open, @1)")?;
    let state = symbols.term("gates(open, gate(shut), held)")?;

    let language = Language::simple(symbols.table());
    let (outcome, answer) = Proved.find(language, &rule, &state, 100_000);
    println!("{} after {} steps", outcome.word().map_or("?", |word| word.text()), outcome.count);
    for j in 0..2 {
        if let (Some(part), Some(terms)) = (answer.run(j), answer.terms(j)) {
            println!("@{j} = [{}], terms {terms}", symbols.show_run(&state[part])?);
        }
    }
    Ok(())
}
