//! `example`: the smallest state that a rule holds of.

use crate::command::{valued, wrong_call, Command};
use crate::explain::numbered;
use crate::kind::Kind;
use crate::marks::{coloured, GREEN, RED};
use crate::matching::{read_allowance, ALLOWANCE};
use crate::progress::Progress;
use crate::trace::Tree;
use crate::{editions, read_symbols, trouble, Console, Look, Reply, Stop, ENGINE};
use interface::{
    Edition, Language, Word, Written, COMPLEMENT, EXAMPLE_LIMIT, FIRST_NAME, FIRST_RUN, LIST,
};
use notation::{Parsed, Symbols};

pub const EXAMPLE: Command = Command {
    name: "example",
    usage: &[(
        "example [--size N] [--allowance N] [--edition E] SYMBOLS RULE",
        "show a state that a rule holds of, of at most N bytes, 6 if not given: the one with the \
         fewest bytes and, among those, the first by bytes",
    )],
    help: "\
States are tried in that order, each with the whole allowance. The first line
has the word and the count of the state shown. If no state up to that size will
do, the word is `no example`: a larger one may, or the rule can never hold. The
first state on which the search is spent ends it, and the word is spent.
",
    run: example,
};

/// Runs `example` by its arguments: symbols and rule, and options around them.
fn example(arguments: &[&str], console: &mut Console) -> Reply {
    let (edition, arguments) = editions::taken(arguments)?;
    let size = EXAMPLE_LIMIT as u32;
    let (size, arguments) = valued("example", &arguments, "--size", size, read_size)?;
    let (allowance, arguments) =
        valued("example", &arguments, "--allowance", ALLOWANCE, read_allowance)?;
    let [symbols, rule] = arguments[..] else { return wrong_call("example") };
    let symbols = &read_symbols(symbols)?;
    let rule = symbols.parsed_pattern(rule).or_else(|error| trouble(format!("rule, {error}")))?;
    let language = symbols.language(edition.unwrap_or(Edition::ONE));
    let (written, state) = least(language, &rule.bytes, size, allowance);
    match written.word() {
        Some(Word::Bound) => {
            let word = coloured(Word::Bound.text(), GREEN, console.look);
            let state = symbols.show_term(&state).or_else(trouble)?;
            Ok(format!("{word} {}\n{state}\n", written.count))
        }
        _ => Err(Stop::No(stopped(symbols, &rule, size, written, console.look))),
    }
}

fn read_size(number: &str) -> Result<u32, Stop> {
    let size = number.parse().ok().filter(|&size| size <= EXAMPLE_LIMIT as u32);
    size.map_or_else(|| trouble(format!("--size {number}: expected 0 to {EXAMPLE_LIMIT}")), Ok)
}

/// The least example; that it is looked for is told if it takes long.
fn least(language: Language, rule: &[u8], size: u32, allowance: u32) -> (Written, Vec<u8>) {
    let _progress = Progress::of_example();
    ENGINE.0.least(language, rule, size, allowance)
}

/// What is said if there is no example.
fn stopped(symbols: &Symbols, rule: &Parsed, size: u32, written: Written, look: Look) -> String {
    match written.word() {
        Some(Word::Spent) => {
            let word = coloured(Word::Spent.text(), RED, look);
            format!("{word} {}: the allowance ends the search; see --allowance", written.count)
        }
        Some(Word::NoExample) => {
            let (size, fewest) = (size as usize, fewest(symbols.table(), &rule.bytes));
            let larger = format!("; it has nodes for {fewest}");
            let larger = if fewest > size { larger } else { String::new() };
            let none = format!("the rule holds of no state of up to {size} bytes");
            format!("{}: {none}{larger}", numbered(Word::NoExample))
        }
        Some(word) => {
            let place = Kind::Rule.unspliced(symbols, rule).filter(|_| word == Word::Unspliced);
            numbered(word) + &place.map_or(String::new(), |place| format!(", rule, {place}"))
        }
        None => "refused".into(),
    }
}

/// The fewest bytes of a state that has a node for each node of a rule outside its complements.
fn fewest(table: &[u8], rule: &[u8]) -> usize {
    let (tree, mut at, mut bytes) = (Tree::new(table, rule), 0, 0);
    while let Some(&code) = rule.get(at) {
        let (own, next) = match code {
            COMPLEMENT => (1, tree.node(at).end),
            FIRST_RUN.. => (0, at + 1),
            FIRST_NAME.. => (1, at + 1),
            _ if table[usize::from(code)] == LIST => (2, at + 2),
            _ => (1, at + 1),
        };
        (at, bytes) = (next, bytes + own);
    }
    bytes
}
