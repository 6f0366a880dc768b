//! Asks whether a loader, who opens gates, can bring about that all are open while a sender shuts
//! them, and by which move first.
//!
//! `cargo run --example game`

use interface::{sheet_of, Edition, Library, Opening, Side};
use notation::Symbols;
use proved::Proved;

const SYMBOLS: &str = "open shut locked gates/*";
const LOADER: [&str; 2] = [
    "gates(@0, shut, @1) => gates(@0, open, @1)",
    "gates(@0, shut, shut, @1) => gates(@0, open, locked, @1)",
];
const SENDER: [&str; 1] = ["gates(@0, locked, @1) => gates(@0, open, @1)"];

fn main() -> Result<(), notation::Error> {
    let symbols = Symbols::parse(SYMBOLS)?;
    let (loader, sender) = (sheets(&symbols, &LOADER)?, sheets(&symbols, &SENDER)?);
    let [loader, sender] = [&loader, &sender].map(|[rules, templates]| Side { rules, templates });
    let goal = symbols.pattern("!gates(@0, !open, @1)")?;

    let language = symbols.language(Edition::ONE);
    for text in ["gates(open, open)", "gates(shut, shut)", "gates(locked)"] {
        let start = symbols.term(text)?;
        for turns in [0, 2] {
            let outcome = Proved.play(turns, language, loader, sender, &goal, &start, 100_000);
            let first = match outcome.opening() {
                Some(Opening::NoMove) => "forced, no move is needed".into(),
                Some(Opening::Rule(rule)) => format!("forced by {}", LOADER[rule]),
                Some(Opening::Pass) => "forced by a pass".into(),
                None => format!("number {}", outcome.number),
            };
            println!("{text}, {turns} turns: {first}");
        }
    }
    Ok(())
}

/// Two sheets, of the rules and of the templates of moves.
fn sheets(symbols: &Symbols, moves: &[&str]) -> Result<[Vec<u8>; 2], notation::Error> {
    let (mut rules, mut templates) = (Vec::new(), Vec::new());
    for text in moves {
        let parts = symbols.parsed_move(text)?;
        rules.push(parts.rule.bytes);
        templates.push(parts.template.bytes);
    }
    Ok([rules, templates].map(|entries| sheet_of(Edition::ONE, &entries)))
}
