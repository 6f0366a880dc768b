//! `compare [--bare] [CASES [SEED [FIRST]]]`: the proved library against both variants of the
//! independent implementation.

use compare::Cases;
use interface::Library;
use std::{env, process::ExitCode};

fn main() -> ExitCode {
    let mut arguments: Vec<String> = env::args().skip(1).collect();
    let bare = arguments.first().is_some_and(|first| first == "--bare");
    let numbers = arguments.drain(usize::from(bare)..).map(|text| text.parse());
    let Ok(numbers) = numbers.collect::<Result<Vec<u64>, _>>() else {
        eprintln!("usage: compare [--bare] [CASES [SEED [FIRST]]]");
        return ExitCode::from(2);
    };
    let number = |place: usize, default| numbers.get(place).copied().unwrap_or(default);
    let margin = if bare { 0 } else { 24 };
    run(Cases { number: number(0, 100_000), seed: number(1, 1), first: number(2, 0), margin })
}

fn run(cases: Cases) -> ExitCode {
    match proved::evidence() {
        Ok(evidence) => println!("{evidence}"),
        Err(message) => {
            eprintln!("compare: {message}");
            return ExitCode::from(2);
        }
    }
    let variants: [&dyn Library; 2] = [&reference::Shortcuts, &reference::Reference];
    let histogram = match compare::compare(&proved::Proved, &variants, cases) {
        Ok(histogram) => histogram,
        Err(difference) => {
            println!("the proved library and the independent implementation differ:\n{difference}");
            return ExitCode::from(1);
        }
    };
    println!("{histogram}");
    let rare = histogram.rare();
    if cases.number >= 100_000 && !rare.is_empty() {
        println!("under once in 10,000 cases: {}", rare.join(", "));
        return ExitCode::from(1);
    }
    println!("{} cases of seed {}, no difference", cases.number, cases.seed);
    ExitCode::SUCCESS
}
