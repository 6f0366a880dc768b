//! Lists every answer of a rule on a state: all the ways in which the rule fits.
//!
//! `cargo run --example every_answer`

use interface::{Answers, Language};
use notation::Symbols;
use proved::Proved;

fn main() -> Result<(), notation::Error> {
    let symbols = Symbols::parse("open shut held gate/1 row/2 gates/*")?;
    let rule = symbols.pattern("gates(@0, !open, @1)")?;
    let state = symbols.term("gates(open, gate(shut), held, shut)")?;

    let language = Language::simple(symbols.table());
    let mut answers = Answers::new(&Proved, language, &rule, &state, 100_000);
    for found in &mut answers {
        // Each answer has the whole allowance. An error comes last: the list is cut there.
        let Ok((answer, count)) = found else {
            println!("spent");
            return Ok(());
        };
        println!("bound after {count} steps");
        for j in 0..2 {
            if let Some(part) = answer.run(j) {
                println!("@{j} = [{}]", symbols.show_run(&state[part])?);
            }
        }
    }
    println!("none after these, {} steps in all", answers.counted());
    Ok(())
}
