//! Writes a sheet of states, reads them back one by one, and finds the first rule for each.
//!
//! `cargo run --example rule_sheet`

use interface::{sheet_of, Edition, Language, Library, Word, ANSWER};
use notation::Symbols;
use proved::Proved;

fn main() -> Result<(), notation::Error> {
    let symbols = Symbols::parse("open shut held gate/1 row/2 gates/*")?;
    let language = Language::simple(symbols.table());

    // A sheet of states, written by the library.
    let texts = ["row(open, open)", "row(shut, open)", "held"];
    let states = texts.iter().map(|text| symbols.term(text)).collect::<Result<Vec<_>, _>>()?;
    let lengths: Vec<u16> = states.iter().map(|state| state.len() as u16).collect();
    let mut sheet = [0; 64];
    let written = Proved.write_sheet(language, &states.concat(), &lengths, &mut sheet);
    let sheet = &sheet[..written.count as usize];
    assert_eq!(Proved.check_states(language, sheet).number, 0);

    // A sheet of two rules.
    let rules = [symbols.pattern("row(!?0, ?0)")?, symbols.pattern("row(open, !shut)")?];
    let rules = sheet_of(Edition::ONE, &rules);
    assert_eq!(Proved.check_rules(language, &rules).number, 0);

    for index in 0..lengths.len() {
        let state = &sheet[Proved.entry(sheet, index as u32).range()];
        let outcome = Proved.match_rules(language, &rules, state, 100_000, &mut [0; ANSWER]);
        match outcome.word() {
            Some(Word::Bound) => {
                println!("state {index}: rule {}, {} steps", outcome.index, outcome.count)
            }
            _ => println!("state {index}: no rule, {} steps", outcome.count),
        }
    }
    Ok(())
}
