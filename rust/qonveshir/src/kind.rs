//! What a sheet or a text holds: rules or states.

use crate::explain::{self, meaning};
use crate::ENGINE;
use interface::{sheet_of, Edition, Language, Outcome, Word, RECORD_LIMIT, SHEET_LIMIT};
use notation::{Error, Parsed, Symbols};

#[derive(Clone, Copy, Debug, PartialEq, Eq)]
pub enum Kind {
    Rule,
    State,
}

impl Kind {
    /// What a text is: names, run names and complements make it a rule.
    pub fn of(text: &str) -> Kind {
        if text.contains(['?', '@', '!']) {
            Kind::Rule
        } else {
            Kind::State
        }
    }

    pub fn name(self) -> &'static str {
        match self {
            Kind::Rule => "rule",
            Kind::State => "state",
        }
    }

    pub fn parse<'a>(self, symbols: &'a Symbols, text: &'a str) -> Result<Parsed<'a>, Error> {
        match self {
            Kind::Rule => symbols.parsed_pattern(text),
            Kind::State => symbols.parsed_term(text),
        }
    }

    pub fn show(self, symbols: &Symbols, bytes: &[u8]) -> Result<String, Error> {
        match self {
            Kind::Rule => symbols.show_pattern(bytes),
            Kind::State => symbols.show_term(bytes),
        }
    }

    /// Checks a sheet, which tells its edition.
    pub fn check(self, language: Language, sheet: &[u8]) -> Outcome {
        match self {
            Kind::Rule => ENGINE.0.check_rules(language, sheet),
            Kind::State => ENGINE.0.check_states(language, sheet),
        }
    }

    /// A sheet of entries in the language's edition, or why it is refused.
    pub fn sheet(self, language: Language, entries: &[Vec<u8>]) -> Result<Vec<u8>, Outcome> {
        match self {
            Kind::Rule => {
                let sheet = sheet_of(language.edition, entries);
                let outcome = ENGINE.0.check_rules(language, &sheet);
                if outcome.number == 0 {
                    Ok(sheet)
                } else {
                    Err(outcome)
                }
            }
            Kind::State => {
                let lengths: Vec<u16> = entries.iter().map(|entry| entry.len() as u16).collect();
                let mut sheet = vec![0; SHEET_LIMIT];
                let records = entries.concat();
                written(ENGINE.0.write_sheet(language, &records, &lengths, &mut sheet), sheet)
            }
        }
    }

    /// A rule or state of edition 1, spliced, or why it is refused.
    pub fn spliced(self, language: Language, bytes: &[u8]) -> Result<Vec<u8>, Outcome> {
        let mut output = vec![0; RECORD_LIMIT];
        let outcome = match self {
            Kind::Rule => ENGINE.0.splice_pattern(language, bytes, &mut output),
            Kind::State => ENGINE.0.splice_record(language, bytes, &mut output),
        };
        written(outcome, output)
    }

    /// Where a text has a list that edition 2 refuses, if it has one.
    pub fn unspliced(self, symbols: &Symbols, parsed: &Parsed) -> Option<Error> {
        let kind = if self == Kind::Rule { "pattern" } else { "record" };
        let language = symbols.language(Edition::TWO);
        let fault = explain::check(kind, &parsed.bytes, language).err()?.fault;
        let unspliced = fault.word == Word::Unspliced;
        unspliced.then(|| parsed.error(fault.at as usize, meaning(fault.word)))
    }
}

/// What was written to an output, or the refusal.
pub fn written(outcome: Outcome, mut output: Vec<u8>) -> Result<Vec<u8>, Outcome> {
    output.truncate(outcome.count as usize);
    match outcome.number {
        0 => Ok(output),
        _ => Err(outcome),
    }
}
