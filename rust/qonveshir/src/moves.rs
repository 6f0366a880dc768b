//! `apply` and `look`: a move on a state.

use crate::command::{wrong_call, Command};
use crate::explain::{check_template, numbered};
use crate::kind::Kind;
use crate::marks::{coloured, GREEN, RED};
use crate::matching::{none, read_allowance, ALLOWANCE};
use crate::progress::Progress;
use crate::{editions, read_symbols, trouble, Console, Look, Reply, Stop, ENGINE};
use interface::{Edition, Language, Word, Written, COMPLEMENT, FIRST_NAME, FIRST_RUN};
use notation::{Error, Parsed, ParsedMove, Symbols};
use reference::{
    grammar::Grammar,
    record::Record,
    replace::{self, Limit},
};

pub const APPLY: Command = Command {
    name: "apply",
    usage: &[(
        "apply [--allowance N] [--edition E] SYMBOLS MOVE STATE",
        "match a move's rule against a state and show the state that its template gives",
    )],
    help: MOVES,
    run: |arguments, console| on_state(arguments, console, "apply", apply),
};

pub const LOOK: Command = Command {
    name: "look",
    usage: &[(
        "look [--allowance N] [--edition E] SYMBOLS MOVE STATE",
        "the same without the state: show how many bytes it would have",
    )],
    help: MOVES,
    run: |arguments, console| on_state(arguments, console, "look", look),
};

const MOVES: &str = "\
A template is a rule without complements whose names and run names are free in
the rule: they stand in it outside every complement. The first answer's parts
are put in their places. The first line has the word (bound, none or spent) and
the count, as `qonveshir match` has them. In edition 2 the new state is spliced.
";

/// A move on a state, with an allowance.
pub struct Asked<'a> {
    pub symbols: &'a Symbols,
    pub language: Language<'a>,
    pub parts: ParsedMove<'a>,
    pub state: Parsed<'a>,
    pub allowance: u32,
}

/// What a command makes of a move, and what it shows of one that is bound.
type Made = fn(&Asked) -> (Written, Result<String, Error>);

/// Runs a command by its arguments: options, then symbols, move and state.
fn on_state(arguments: &[&str], console: &mut Console, name: &str, make: Made) -> Reply {
    let (edition, arguments) = editions::taken(arguments)?;
    let edition = edition.unwrap_or(Edition::ONE);
    let (allowance, arguments) = match &arguments[..] {
        ["--allowance", number, rest @ ..] => (read_allowance(number)?, rest),
        rest => (ALLOWANCE, rest),
    };
    let [symbols, text, state] = arguments else { return wrong_call(name) };
    let symbols = &read_symbols(symbols)?;
    let parts = symbols.parsed_move(text).or_else(|error| trouble(format!("move, {error}")))?;
    let state = symbols.parsed_term(state).or_else(|error| trouble(format!("state, {error}")))?;
    let language = symbols.language(edition);
    let asked = Asked { symbols, language, parts, state, allowance };
    asked.made(|| make(&asked), console.look)
}

fn apply(asked: &Asked) -> (Written, Result<String, Error>) {
    let Asked { symbols, language, parts, state, allowance } = asked;
    let (rule, template) = (&parts.rule.bytes, &parts.template.bytes);
    let (written, next) = ENGINE.0.applied(*language, rule, template, &state.bytes, *allowance);
    (written, if written.number == 0 { symbols.show_term(&next) } else { Ok(String::new()) })
}

fn look(asked: &Asked) -> (Written, Result<String, Error>) {
    let Asked { language, parts, state, allowance, .. } = asked;
    let (rule, template) = (&parts.rule.bytes, &parts.template.bytes);
    let written = ENGINE.0.look(*language, rule, template, &state.bytes, *allowance);
    (written, Ok(format!("length {}", written.length)))
}

impl Asked<'_> {
    /// Makes a move: word and count, and what is shown of one that is bound.
    pub fn made(
        &self,
        make: impl FnOnce() -> (Written, Result<String, Error>),
        look: Look,
    ) -> Reply {
        let _progress = Progress::of_match(self.allowance);
        let (written, text) = make();
        let word = |word: Word, colour| {
            format!("{} {}", coloured(word.text(), colour, look), written.count)
        };
        match written.word() {
            Some(Word::Bound) => {
                Ok(format!("{}\n{}\n", word(Word::Bound, GREEN), text.or_else(trouble)?))
            }
            Some(Word::None) => Err(Stop::No(none(written.count, look))),
            Some(Word::Spent) => Err(Stop::No(word(Word::Spent, RED))),
            _ => Err(Stop::No(self.refused(written))),
        }
    }

    /// A refusal, with the place in the texts.
    fn refused(&self, written: Written) -> String {
        let Asked { symbols, parts: ParsedMove { rule, template }, state, .. } = self;
        let place = match written.word() {
            Some(Word::Unspliced) => [
                (Kind::Rule, "rule", rule),
                (Kind::Rule, "template", template),
                (Kind::State, "state", state),
            ]
            .into_iter()
            .find_map(|(kind, name, text)| Some((name, kind.unspliced(symbols, text)?))),
            Some(Word::Loose) => Some("template").zip(loose(self.language, &self.parts)),
            Some(Word::Outgrown) => Some("template").zip(self.outgrown()),
            _ => None,
        };
        let place = place.map(|(name, error)| format!(", {name}, {error}")).unwrap_or_default();
        written.word().map_or("refused".into(), numbered) + &place
    }

    /// Where and why the result is no record.
    fn outgrown(&self) -> Option<Error> {
        let Asked { language, parts: ParsedMove { rule, template }, state, .. } = self;
        let (grammar, mut ends) = (Grammar::read(*language).ok()?, Vec::new());
        let record = Record::read(grammar, &state.bytes, &mut ends).ok()?;
        let (_, answer) = ENGINE.0.find(*language, &rule.bytes, &state.bytes, self.allowance);
        let outgrown = replace::filled(grammar, &template.bytes, record, &answer).err()?;
        let message = match outgrown.limit {
            Limit::Bytes => "with this the new state has over 4,096 bytes",
            Limit::Nesting => "with this the new state has nesting over 32",
            Limit::Elements => "in the new state this list has over 255 elements",
        };
        Some(template.error(outgrown.at, message))
    }
}

/// Where and why an accepted pattern is no template of an accepted rule, if so.
pub fn loose(language: Language, parts: &ParsedMove) -> Option<Error> {
    let ParsedMove { rule, template } = parts;
    let fault = check_template(&rule.bytes, &template.bytes, language).err()?.fault;
    let message = match template.bytes[fault.at as usize] {
        COMPLEMENT => "a template has no complement".into(),
        code @ FIRST_RUN.. => format!("@{} is not free in the rule", code - FIRST_RUN),
        code => format!("?{} is not free in the rule", code - FIRST_NAME),
    };
    Some(template.error(fault.at as usize, message))
}
