//! Makes the move `gates(@0, shut, @1) => gates(@0, open, @1)` on a state until it finds none, with a
//! look before each.
//!
//! `cargo run --example moves`

use interface::{Language, Library, Word};
use notation::Symbols;
use proved::Proved;

fn main() -> Result<(), notation::Error> {
    let symbols = Symbols::parse("open shut held gates/*")?;
    let rule = symbols.pattern("gates(@0, shut, @1)")?;
    let template = symbols.pattern("gates(@0, open, @1)")?;
    let mut state = symbols.term("gates(shut, held, shut)")?;

    let language = Language::simple(symbols.table());
    loop {
        let look = Proved.look(language, &rule, &template, &state, 100_000);
        let word = look.word().map_or("?", Word::text);
        println!("{} is {word}, count {}", symbols.show_term(&state)?, look.count);
        if look.word() != Some(Word::Bound) {
            return Ok(());
        }
        let mut next = vec![0; look.length as usize];
        let written = Proved.apply(language, &rule, &template, &state, 100_000, &mut next);
        assert_eq!(written, look);
        state = next;
    }
}
