//! `match`.

use crate::command::{wrong_call, Command};
use crate::explain::numbered;
use crate::kind::Kind;
use crate::marks::{coloured, marked, Mark, GREEN, RED};
use crate::progress::Progress;
use crate::{editions, read_symbols, trouble, Console, Look, Reply, Stop, ENGINE};
use interface::{Answer, Answers, Edition, Language, Outcome, Word, NAMES, RUNS};
use notation::{Error, Symbols};
use std::ops::Range;

pub const MATCH: Command = Command {
    name: "match",
    usage: &[
        (
            "match [OPTION]... SYMBOLS RULE STATE",
            "match a rule against a state, both given as text, and show the first answer; an \
             OPTION is --all for every answer, --marks, --allowance N for that of each answer, \
             100,000 if not given, or --edition E",
        ),
        (
            "match --plain [--marks] [--edition E] SYMBOLS RULE STATE",
            "match a plain rule by the plain tier, which needs no allowance: a rule without \
             complements, with no name or run name twice and at most one run name in a list",
        ),
    ],
    help: "\
The first line has the word (bound, none or spent) and the count. If the rule is
bound, a line for each of its names and run names shows the part of the state
that it stands for, where that lies in the state's bytes, and of a run how many
terms it has. On a terminal, and with --marks, the state is shown too, with
marks below these parts: ^ below a part, | where an empty run stands. `qonveshir
why SYMBOLS RULE STATE` shows where a rule fails.
",
    run: matched,
};

/// The allowance, if none is given; the report's own.
pub const ALLOWANCE: u32 = 100_000;

/// Matches what is asked with an allowance.
type Find = fn(&Asked, u32, &mut Console) -> Reply;

/// Runs a match by its arguments: options, then symbols, rule and state.
fn matched(arguments: &[&str], console: &mut Console) -> Reply {
    let (edition, arguments) = editions::taken(arguments)?;
    let edition = edition.unwrap_or(Edition::ONE);
    let (mut find, mut allowance): (Find, _) = (find, ALLOWANCE);
    let mut arguments = &arguments[..];
    loop {
        match arguments {
            ["--plain", rest @ ..] => return matched_plain(edition, rest, console),
            ["--all", rest @ ..] => (find, arguments) = (find_all, rest),
            ["--marks", rest @ ..] => (console.look.marks, arguments) = (true, rest),
            ["--allowance", number, rest @ ..] => {
                (allowance, arguments) = (read_allowance(number)?, rest)
            }
            [symbols, rule, state] => {
                return find(&Asked::read(edition, symbols, rule, state)?, allowance, console)
            }
            _ => return wrong_call("match"),
        }
    }
}

/// The same by the plain tier; of the options only `--marks` may follow.
fn matched_plain(edition: Edition, arguments: &[&str], console: &mut Console) -> Reply {
    match arguments {
        ["--marks", rest @ ..] => {
            console.look.marks = true;
            matched_plain(edition, rest, console)
        }
        [symbols, rule, state] => {
            find_plain(&Asked::read(edition, symbols, rule, state)?, console.look)
        }
        _ => wrong_call("match"),
    }
}

pub fn read_allowance(number: &str) -> Result<u32, Stop> {
    number.parse().or_else(|_| trouble(format!("--allowance {number}: expected 0 to {}", u32::MAX)))
}

/// Matches a rule against a state, up to the classes that the symbols have, and shows what each
/// free name and run name stands for.
fn find(asked: &Asked, allowance: u32, console: &mut Console) -> Reply {
    let (look, mut answers) = (console.look, asked.answers(allowance));
    match next_answer(&mut answers, allowance) {
        Some(Ok((answer, count))) => asked.bound(&answer, count, look),
        Some(Err(outcome)) => Err(Stop::No(asked.stopped(outcome, look))),
        None => Err(Stop::No(none(answers.counted(), look))),
    }
}

/// The same by the plain tier, which takes no allowance.
fn find_plain(asked: &Asked, look: Look) -> Reply {
    let (outcome, answer) = ENGINE.0.find_plain(asked.language(), &asked.pattern, &asked.record);
    match outcome.word() {
        Some(Word::Bound) => asked.bound(&answer, outcome.count, look),
        Some(Word::None) => Err(Stop::No(none(outcome.count, look))),
        _ => Err(Stop::No(asked.stopped(outcome, look))),
    }
}

/// The same for every answer, in order, each with the whole allowance and printed when it is found.
fn find_all(asked: &Asked, allowance: u32, console: &mut Console) -> Reply {
    let (look, mut answers) = (console.look, asked.answers(allowance));
    let mut number = 0;
    while let Some(found) = next_answer(&mut answers, allowance) {
        let (answer, count) = found.map_err(|outcome| Stop::No(asked.stopped(outcome, look)))?;
        if !console.print(&asked.bound(&answer, count, look)?).or_else(trouble)? {
            return Ok(String::new());
        }
        number += 1;
    }
    match number {
        0 => Err(Stop::No(none(answers.counted(), look))),
        _ => Ok(format!("answers: {number}, sum of counts: {}\n", answers.counted())),
    }
}

/// The next answer; that it is looked for is told if it takes long.
pub fn next_answer(
    answers: &mut Answers,
    allowance: u32,
) -> Option<Result<(Answer, u64), Outcome>> {
    let _progress = Progress::of_match(allowance);
    answers.next()
}

/// A rule and a state over symbols, in an edition.
pub struct Asked<'a> {
    pub symbols: Symbols,
    pub pattern: Vec<u8>,
    pub record: Vec<u8>,
    edition: Edition,
    /// The texts of rule and state.
    texts: [&'a str; 2],
}

impl<'a> Asked<'a> {
    pub fn read(
        edition: Edition,
        symbols: &str,
        rule: &'a str,
        state: &'a str,
    ) -> Result<Self, Stop> {
        let symbols = read_symbols(symbols)?;
        let pattern = symbols.pattern(rule).or_else(|error| trouble(format!("rule, {error}")))?;
        let record = symbols.term(state).or_else(|error| trouble(format!("state, {error}")))?;
        Ok(Asked { symbols, pattern, record, edition, texts: [rule, state] })
    }

    pub fn answers(&self, allowance: u32) -> Answers<'_> {
        Answers::new(ENGINE.0, self.language(), &self.pattern, &self.record, allowance)
    }

    fn language(&self) -> Language<'_> {
        self.symbols.language(self.edition)
    }

    /// An outcome that is spent or refused; of an unspliced text the place is told.
    pub fn stopped(&self, outcome: Outcome, look: Look) -> String {
        match outcome.word() {
            Some(Word::Spent) => {
                format!("{} {}", coloured(Word::Spent.text(), RED, look), outcome.count)
            }
            Some(Word::Unspliced) => {
                let mut texts = [Kind::Rule, Kind::State].into_iter().zip(self.texts);
                let place = texts.find_map(|(kind, text)| {
                    let parsed = kind.parse(&self.symbols, text).ok()?;
                    Some(format!(", {}, {}", kind.name(), kind.unspliced(&self.symbols, &parsed)?))
                });
                numbered(Word::Unspliced) + &place.unwrap_or_default()
            }
            _ => format!("refused {}", outcome.number),
        }
    }

    /// The count, the state with marks if the look has them, and a line for each free name and run
    /// name.
    fn bound(&self, answer: &Answer, count: u64, look: Look) -> Reply {
        let names = (0..NAMES).filter_map(|i| Some((format!("?{i}"), answer.name(i)?, None)));
        let runs =
            (0..RUNS).filter_map(|j| Some((format!("@{j}"), answer.run(j)?, answer.terms(j))));
        let parts: Vec<_> = names.chain(runs).collect();
        let lines: Result<String, Error> =
            parts.iter().map(|(name, part, terms)| self.shown(name, part, *terms)).collect();
        let mut text = format!("{} {count}\n", coloured(Word::Bound.text(), GREEN, look));
        if look.marks && !parts.is_empty() {
            text += &self.with_marks(&parts, look).or_else(trouble)?;
        }
        Ok(text + &lines.or_else(trouble)?)
    }

    /// The state with marks below the parts.
    fn with_marks<T>(
        &self,
        parts: &[(String, Range<usize>, T)],
        look: Look,
    ) -> Result<String, Error> {
        let shown = self.symbols.shown_term(&self.record)?;
        let mark = |(name, part, _): &(String, Range<usize>, T)| Mark {
            label: name.clone(),
            part: shown.part(part.clone()),
        };
        Ok(marked("", &shown.text, &parts.iter().map(mark).collect::<Vec<_>>(), look))
    }

    /// One line: the name, its part as text, where that lies, and how many terms a run has.
    fn shown(&self, name: &str, part: &Range<usize>, terms: Option<u16>) -> Result<String, Error> {
        let place = format!("offset {}, length {}", part.start, part.len());
        let terms = terms.map_or(String::new(), |terms| format!(", terms {terms}"));
        Ok(format!("{name} = {}  ({place}{terms})\n", self.part(part.clone())?))
    }

    /// A part of the state as text.
    pub fn part(&self, part: Range<usize>) -> Result<String, Error> {
        let text = self.symbols.show_run(&self.record[part])?;
        Ok(if text.is_empty() { "nothing".into() } else { text })
    }
}

pub fn none(count: u64, look: Look) -> String {
    format!("{} {count}", coloured(Word::None.text(), RED, look))
}
