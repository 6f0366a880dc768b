//! Keeps the morning's row, opens its gates one by one, and goes back to the morning.
//!
//! `cargo run --example kept`

use interface::{Language, Station, Word};
use notation::Symbols;
use proved::Proved;

const MORNING: u16 = 600;

fn main() -> Result<(), notation::Error> {
    let symbols = Symbols::parse("open shut held gates/*")?;
    let rule = symbols.pattern("gates(@0, shut, @1)")?;
    let template = symbols.pattern("gates(@0, open, @1)")?;
    let row = symbols.term("gates(shut, held, shut)")?;

    let language = Language::simple(symbols.table());
    let mut station = Station::new(&Proved, language, &row).expect("the row is accepted");
    station.keep(MORNING);
    loop {
        println!("current: {}", symbols.show_term(station.current())?);
        let written = station.apply(language, &rule, &template, 100_000);
        if written.word() != Some(Word::Bound) {
            break;
        }
    }
    for name in [MORNING, MORNING + 1] {
        let word = station.return_to(name).word().map_or("?", Word::text);
        println!("return to {name}: {word}, {}", symbols.show_term(station.current())?);
    }
    Ok(())
}
