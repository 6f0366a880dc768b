//! The workloads of the least example; n is the size.

use crate::workloads::Workload;
use interface::{
    Language, Library, Word, COMPLEMENT, EXAMPLE_LIMIT, FIRST_NAME, FIRST_RUN, LIST, TABLE_LIMIT,
};
use notation::{entries, Symbols};
use std::cell::RefCell;

pub fn all() -> Vec<Workload> {
    let sizes = [4, 5, EXAMPLE_LIMIT];
    let mut all = vec![station()];
    all.extend(sizes.map(|n| never("example, 200 symbols, never", n, unlike_any())));
    all.extend(sizes.map(|n| never("example, 60 symbols of its own, never", n, own_symbols())));
    all
}

/// Each rule of a sheet over forty symbols.
fn station() -> Workload {
    let symbols = include_str!("../../../samples/station/symbols.txt");
    let symbols = Symbols::parse(symbols).expect("the symbols are right");
    let rules = entries(include_str!("../../../samples/station/rules.txt"));
    let rule = |text: &str| symbols.pattern(text).expect("the rule is right");
    let rules: Vec<Vec<u8>> = rules.map(|entry| rule(&entry.body)).collect();
    let (name, table) = ("example, 48 rules over 40 symbols", symbols.table().to_vec());
    examples(name, EXAMPLE_LIMIT, table, rules, &[Word::Bound, Word::NoExample])
}

/// The list symbol, after as many symbols without children as there can be beside it.
const LAST: u8 = TABLE_LIMIT as u8 - 1;

/// A pattern that none of them can tell apart from another, which never holds.
fn unlike_any() -> Vec<u8> {
    vec![LAST, 3, FIRST_RUN, COMPLEMENT, FIRST_NAME, FIRST_RUN + 1]
}

/// A pattern that asks for sixty of them, behind a run name.
fn own_symbols() -> Vec<u8> {
    [vec![LAST, 61, FIRST_RUN], (0..60).collect()].concat()
}

fn never(name: &'static str, n: usize, pattern: Vec<u8>) -> Workload {
    let table = [vec![0; LAST.into()], vec![LIST]].concat();
    examples(name, n, table, vec![pattern], &[Word::NoExample])
}

/// The example of each of some patterns, which comes to one of these words.
fn examples(
    name: &'static str,
    n: usize,
    table: Vec<u8>,
    patterns: Vec<Vec<u8>>,
    words: &'static [Word],
) -> Workload {
    let (units, output) = (patterns.len() as u64, RefCell::new([0; EXAMPLE_LIMIT]));
    let run = Box::new(move |library: &dyn Library| {
        let (language, output) = (Language::simple(&table), &mut *output.borrow_mut());
        for pattern in &patterns {
            let written = library.example(language, pattern, n as u32, u32::MAX, output);
            assert!(words.iter().any(|&word| written.word() == Some(word)));
        }
    });
    Workload { name, n, call: "qonveshir_example", unit: "rule", units, run }
}
