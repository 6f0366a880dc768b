//! `explain`: the readers of the independent implementation find the place.

use crate::command::{wrong_call, Command};
use crate::{editions, read, trouble, Console, Reply, Stop};
use interface::*;
use reference::{
    classes::Classes, fault::Fault, grammar::Grammar, pattern::Steps, record::Record, replace,
    sheet::Sheet, stored, Refusal,
};

/// What the proved program `codes` prints: a line for each code from 0 up, the code and its kind.
const CODES: &str = include_str!("../../../crates/codes/stdout");

pub const EXPLAIN: Command = Command {
    name: "explain",
    usage: &[
        (
            "explain [--edition E] TABLE [--KIND FILE]...",
            "say why a table is refused, or a file over it; KIND is classes, rules, states, \
             pattern, template, record or stored",
        ),
        ("explain NUMBER", "say what a number means"),
        ("explain --code CODE", "say what kind a code of a pattern is"),
    ],
    help: "\
A class list counts for the files named after it, and a pattern is the rule of
the templates after it.
",
    run: explain,
};

/// Explains what the arguments name: a number, a code, or a table and inputs over it.
fn explain(arguments: &[&str], _: &mut Console) -> Reply {
    let (edition, arguments) = editions::taken(arguments)?;
    match (edition, &arguments[..]) {
        (_, []) => wrong_call("explain"),
        (None, ["--code", code]) => kind(code),
        (None, [number]) if number.parse::<u32>().is_ok() => {
            explain_number(number.parse().unwrap_or(u32::MAX))
        }
        (_, [table, inputs @ ..]) => explain_inputs(edition.unwrap_or(Edition::ONE), table, inputs),
    }
}

/// Checks a table, and inputs over it.
fn explain_inputs(edition: Edition, path: &str, mut rest: &[&str]) -> Reply {
    let (table, mut classes, mut rule) = (read(path)?, None, None);
    let simple = Language::simple(&table).in_edition(edition);
    let mut text = input("table", path, &table, simple, None)?;
    while let [option, path, later @ ..] = rest {
        let kind = match *option {
            "--classes" => "classes",
            "--rules" => "rules",
            "--states" => "states",
            "--pattern" => "pattern",
            "--template" if rule.is_none() => {
                return trouble("--template: name its --pattern first")
            }
            "--template" => "template",
            "--record" => "record",
            "--stored" => "stored",
            _ => return trouble(format!("{option}: see qonveshir explain --help")),
        };
        let bytes = read(path)?;
        let language = Language { classes: classes.as_deref(), ..simple };
        text += &input(kind, path, &bytes, language, rule.as_deref())?;
        match kind {
            "classes" => classes = Some(bytes),
            "pattern" => rule = Some(bytes),
            _ => {}
        }
        rest = later;
    }
    match rest {
        [] => Ok(text),
        _ => wrong_call("explain"),
    }
}

fn explain_number(number: u32) -> Reply {
    match Word::of(number) {
        Some(word) => Ok(format!("{number} {}: {}\n{}", word.text(), meaning(word), more(word))),
        None => trouble(format!("{number}: there is no such number")),
    }
}

/// A refusal's number and word.
pub fn numbered(word: Word) -> String {
    format!("refused {} {}", word.number(), word.text())
}

/// Stops at a refusal of what a path names, at a place in it.
pub fn stop<T>(path: &str, refused: Outcome, place: &str) -> Result<T, Stop> {
    Err(Stop::No(match refused.word() {
        Some(word) => format!("{path}: {}{place}: {}", numbered(word), meaning(word)),
        None => format!("{path}: refused {}{place}", refused.number),
    }))
}

/// When a word is given, and what to do where a command mends it.
pub fn meaning(word: Word) -> String {
    let mend = match word {
        Word::Unspliced => "; qonveshir splice puts its elements in its place",
        _ => "",
    };
    word.meaning().to_string() + mend
}

/// A further line: when else a word is given, or the command that gives it, where it is one alone.
fn more(word: Word) -> String {
    let command = match word {
        Word::NoName | Word::Shelf => "session",
        Word::NoExample => "example",
        Word::Turns => "play",
        _ => return word.also().map_or(String::new(), |also| format!("also: {also}\n")),
    };
    format!("from qonveshir {command}\n")
}

/// The line of a code.
fn kind(code: &str) -> Reply {
    match code.parse().ok().and_then(|code| CODES.lines().nth(code)) {
        Some(line) => Ok(format!("{line}\n")),
        None => trouble(format!("{code}: codes are 0 to {}", CODES.lines().count() - 1)),
    }
}

/// Checks one input; a template by its rule, which is accepted.
fn input(kind: &str, path: &str, bytes: &[u8], language: Language, rule: Option<&[u8]>) -> Reply {
    let said = if kind == "rules" || kind == "states" { editions::said(bytes) } else { "" };
    let checked = match (kind, rule) {
        ("template", Some(rule)) => check_template(rule, bytes, language),
        _ => check(kind, bytes, language),
    };
    match checked {
        Ok(()) => Ok(format!("{path}: accepted as {kind}{said}\n")),
        Err(refusal) => Err(Stop::No(refused(kind, path, bytes, language.table, refusal))),
    }
}

pub fn check(kind: &str, bytes: &[u8], language: Language) -> Result<(), Refusal> {
    let grammar = Grammar::read(language)?;
    match kind {
        "classes" => Classes::read(grammar.table, bytes).map(|_| ())?,
        "rules" => reference::check_rules(language, bytes)?,
        "states" => reference::check_states(language, bytes)?,
        "pattern" => Steps::new().read(grammar, bytes).map(|_| ())?,
        "record" => Record::check(grammar, bytes)?,
        "stored" => stored::check(grammar, bytes).map(|_| ())?,
        _ => {}
    }
    Ok(())
}

/// Why a pattern is no template of an accepted rule.
pub fn check_template(rule: &[u8], template: &[u8], language: Language) -> Result<(), Refusal> {
    let (grammar, mut rule_steps, mut steps) =
        (Grammar::read(language)?, Steps::new(), Steps::new());
    let start = rule_steps.read(grammar, rule)?;
    steps.read(grammar, template)?;
    Ok(replace::check(steps.as_slice(), rule_steps.free(start))?)
}

/// Why the states of a report are refused, whose rules have the edition given.
pub fn check_states(states: &[u8], table: &[u8], rules: Edition) -> Result<(), Refusal> {
    if Sheet::read(states).is_ok() && edition_of(states) != rules {
        let fault = Fault { word: Word::Directory, at: EDITION_BYTE as u32 };
        return Err(fault.into());
    }
    check("states", states, Language::simple(table))
}

/// The byte of a sheet that has the mark of its edition.
const EDITION_BYTE: usize = 1;

/// Number, word, input, byte and what was expected there.
pub fn refused(kind: &str, path: &str, bytes: &[u8], table: &[u8], refusal: Refusal) -> String {
    let (word, within) = (refusal.fault.word, refusal.fault.at as usize);
    let start = refusal.entry.and_then(|entry| Sheet::read(bytes).ok()?.range(entry));
    let at = start.map_or(0, |range| range.start) + within;
    let mut text = format!("{path}: {}\ninput: {kind}", numbered(word));
    if let Some(entry) = refusal.entry {
        text += &format!(", entry {entry}");
    }
    text += &format!("\nbyte: {at}");
    if refusal.entry.is_some() {
        text += &format!(", byte {within} of the entry");
    }
    match bytes.get(at) {
        Some(byte) => text += &format!(", which is {byte}"),
        None => text += ", past the end",
    }
    let in_entry = refusal.entry.is_some();
    text + "\nexpected: "
        + &match word {
            Word::Code => codes(kind, table.len()),
            Word::Class => class(bytes, at, table),
            Word::Directory => directory(bytes, at).into(),
            _ => expected(kind, word, in_entry, at).into(),
        }
}

fn expected(kind: &str, word: Word, in_entry: bool, at: usize) -> &'static str {
    match word {
        Word::Table if at >= TABLE_LIMIT => "at most 200 bytes",
        Word::Table => "0 to 8 children, or 255 for a list",
        Word::Short if kind == "stored" => {
            "a further node, or a list's number of children or length"
        }
        Word::Short => "a further node, or a list's number of children",
        Word::Spare => "the end, since the last node ends before",
        Word::Deep => "nesting of at most 32, complements not counted",
        Word::Long if reads_pattern(kind) && (kind != "rules" || in_entry) => "at most 256 bytes",
        Word::Long if kind == "stored" && at == STORED_LIMIT => "at most 8,192 bytes",
        Word::Long if kind == "stored" => "an old form of at most 4,096 bytes",
        Word::Long if kind == "record" || in_entry => "at most 4,096 bytes",
        Word::Long if at == 0 => "at most 64 rules",
        Word::Long => "at most 32,768 bytes",
        Word::Length => "the length in bytes of the list's children, low byte first",
        Word::Stray => "a run name only as a direct child of a list",
        Word::Loose => "no complement, and a name or run name only if it is free in the rule",
        Word::Unspliced => "this list's elements in its place, as qonveshir splice puts them",
        _ => word.meaning(),
    }
}

fn codes(kind: &str, symbols: usize) -> String {
    let symbols = match symbols {
        0 => "no symbol, since the table is empty".into(),
        _ => format!("a symbol from 0 to {}", symbols - 1),
    };
    let more = ", a name 200 to 231, a run name 232 to 247 or the complement 248";
    symbols + if reads_pattern(kind) { more } else { "" }
}

fn reads_pattern(kind: &str) -> bool {
    matches!(kind, "pattern" | "template" | "rules")
}

/// What a class list should have at a place.
fn class(list: &[u8], at: usize, table: &[u8]) -> String {
    if list.len() != table.len() {
        return format!("a list as long as the table, which has {} bytes", table.len());
    }
    let class = list[at];
    match list[..=at].get(usize::from(class)) {
        None => format!("at most its own index, which is {at}"),
        Some(&own) if own != class => format!("its own class; {class} has the class {own}"),
        _ => format!("a symbol with the table's byte {}", table[at]),
    }
}

/// What a sheet's directory should have at a place.
fn directory(bytes: &[u8], at: usize) -> &'static str {
    let count = bytes.first_chunk().map_or(0, |count| u16::from_le_bytes(*count) % EDITION_MARK);
    match at {
        _ if at >= bytes.len() => "a further number of the directory, in two bytes",
        EDITION_BYTE if edition_of(bytes) == Edition::TWO => "edition 1, which the rules have",
        EDITION_BYTE => "edition 2, which the rules have",
        _ if at >= 2 + 4 * usize::from(count) => "the end of the sheet, where its last entry ends",
        _ if at % 4 == 2 => "the offset at which the entry before ends, or the directory",
        _ => "a length over 0 that stays within the sheet",
    }
}
