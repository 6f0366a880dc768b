//! `session`: a state that is moved, kept under names and returned to.

use crate::command::{valued, wrong_call, Command};
use crate::explain::{meaning, numbered};
use crate::kind::Kind;
use crate::matching::{read_allowance, ALLOWANCE};
use crate::moves::Asked;
use crate::{editions, read_symbols, trouble, Console, Look, Reply, Stop, ENGINE};
use interface::{Edition, Language, Outcome, Station, Word};
use notation::{Parsed, Symbols};

pub const SESSION: Command = Command {
    name: "session",
    usage: &[(
        "session [--allowance N] [--edition E] SYMBOLS STATE",
        "start from a state, and read what to do with it, a line each: `apply MOVE` makes a move, \
         `keep NAME` keeps the state under a name, `return NAME` makes that state current again, \
         `show` shows the current state, `kept` the kept ones, `help` says this, `quit` ends it",
    )],
    help: "\
Lines come from the terminal, with a prompt, or from standard input, as in
`qonveshir session SYMBOLS STATE < SCRIPT`; # starts a comment. A name is a word
of letters, digits, - and _, and up to eight states are kept, each still after a
return to it. Keeping under a name again replaces what was there. A line that is
refused or can't be read changes nothing, and the session goes on; the exit
status is that of its worst line. `kept` prints a text of states with names.
",
    run: session,
};

const HELP: &str = "\
apply RULE => TEMPLATE  make a move on the current state
keep NAME               keep the current state under a name
return NAME             make the state kept under a name current
show                    show the current state
kept                    show the kept states
quit                    end; so does the end of the input
";

/// Runs a session by its arguments: symbols and state, and options around them.
fn session(arguments: &[&str], console: &mut Console) -> Reply {
    let (edition, arguments) = editions::taken(arguments)?;
    let (allowance, arguments) =
        valued("session", &arguments, "--allowance", ALLOWANCE, read_allowance)?;
    let [symbols, state] = arguments[..] else { return wrong_call("session") };
    let symbols = &read_symbols(symbols)?;
    let state = symbols.parsed_term(state).or_else(|error| trouble(format!("state, {error}")))?;
    let language = symbols.language(edition.unwrap_or(Edition::ONE));
    let station = Station::new(ENGINE.0, language, &state.bytes)
        .map_err(|outcome| Stop::No(not_begun(symbols, &state, outcome)))?;
    Session { symbols, language, allowance, station, names: Vec::new() }.run(console)
}

/// Why a session can't start from a state.
fn not_begun(symbols: &Symbols, state: &Parsed, refused: Outcome) -> String {
    let place = Kind::State.unspliced(symbols, state);
    let place = place.filter(|_| refused.word() == Some(Word::Unspliced));
    let place = place.map_or(String::new(), |place| format!(", state, {place}"));
    refused.word().map_or("refused".into(), numbered) + &place
}

struct Session<'a> {
    symbols: &'a Symbols,
    language: Language<'a>,
    allowance: u32,
    station: Station<'a>,
    /// The words that states are kept under; a word's place is its name in the station.
    names: Vec<String>,
}

impl Session<'_> {
    /// Does what the lines say; the status is that of the worst.
    fn run(mut self, console: &mut Console) -> Reply {
        let (mut number, mut status) = (0, 0);
        while let Some(line) = console.line().or_else(trouble)? {
            number += 1;
            let done = line.or_else(trouble).and_then(|line| self.line(&line, console.look));
            let (text, worse) = match done {
                Ok(None) => break,
                Ok(Some(text)) => (text, 0),
                Err(Stop::No(text)) => (text + "\n", 1),
                Err(Stop::Trouble(text)) => {
                    (String::new(), console.troubled(format!("line {number}, {text}")))
                }
                Err(Stop::Said(status)) => (String::new(), status),
            };
            status = status.max(worse);
            if !console.print(&text).or_else(trouble)? {
                break;
            }
        }
        Err(Stop::Said(status))
    }

    /// Does what a line says, and gives what is shown; nothing if the session ends.
    fn line(&mut self, line: &str, look: Look) -> Result<Option<String>, Stop> {
        let line = line.split('#').next().unwrap_or("");
        let word = line.split_whitespace().next().unwrap_or("");
        let rest = line.trim_start().strip_prefix(word).unwrap_or("");
        // As much in front of the rest as in the line, so that its columns are those of the line.
        let blanks = " ".repeat(line.chars().count() - rest.chars().count());
        let shown = match (word, rest.trim()) {
            ("", _) => String::new(),
            ("apply", "") => return trouble("expected a move after apply, RULE => TEMPLATE"),
            ("apply", _) => self.apply(&(blanks + rest), look)?,
            ("keep", name) => self.keep(read_name(name)?)?,
            ("return", name) => self.return_to(read_name(name)?)?,
            ("show", "") => self.state(self.station.current())? + "\n",
            ("kept", "") => self.kept()?,
            ("help", "") => HELP.into(),
            ("quit" | "exit", "") => return Ok(None),
            ("show" | "kept" | "help" | "quit" | "exit", more) => {
                return trouble(format!("expected the end after {word}, found {more:?}"));
            }
            _ => return trouble(format!("{word}: no such command; see help")),
        };
        Ok(Some(shown))
    }

    fn state(&self, record: &[u8]) -> Reply {
        self.symbols.show_term(record).or_else(trouble)
    }

    /// Makes a move; the state before it is asked about as if it were typed.
    fn apply(&mut self, text: &str, look: Look) -> Reply {
        let Session { symbols, language, allowance, .. } = *self;
        let parts = symbols.parsed_move(text).or_else(|error| trouble(format!("move, {error}")))?;
        let before = self.state(self.station.current())?;
        let state = symbols.parsed_term(&before).or_else(trouble)?;
        let (rule, template) = (parts.rule.bytes.clone(), parts.template.bytes.clone());
        let asked = Asked { symbols, language, parts, state, allowance };
        let station = &mut self.station;
        let make = || {
            let written = station.apply(language, &rule, &template, allowance);
            (written, symbols.show_term(station.current()))
        };
        asked.made(make, look)
    }

    /// The place of a word among those kept; after them if it is not.
    fn place(&self, name: &str) -> usize {
        self.names.iter().position(|kept| kept == name).unwrap_or(self.names.len())
    }

    fn keep(&mut self, name: &str) -> Reply {
        let place = self.place(name);
        let before =
            self.station.kept(place as u16).map(|record| self.state(record)).transpose()?;
        let outcome = self.station.keep(place as u16);
        self.accepted(outcome, name)?;
        match before {
            Some(before) => Ok(format!("kept {name}, in place of {before}\n")),
            None => {
                self.names.push(name.into());
                Ok(format!("kept {name}\n"))
            }
        }
    }

    fn return_to(&mut self, name: &str) -> Reply {
        let outcome = self.station.return_to(self.place(name) as u16);
        self.accepted(outcome, name)?;
        Ok(self.state(self.station.current())? + "\n")
    }

    /// A line for each state that is kept, in the order in which the names came.
    fn kept(&self) -> Reply {
        let records = self.station.names().iter().filter_map(|&name| {
            Some((self.names.get(usize::from(name))?, self.station.kept(name)?))
        });
        let line =
            |(name, record): (&String, &[u8])| Ok(format!("{name}: {}\n", self.state(record)?));
        match self.names[..] {
            [] => Ok("nothing is kept\n".into()),
            _ => records.map(line).collect(),
        }
    }

    /// A refusal in words, with the names that there are.
    fn accepted(&self, outcome: Outcome, name: &str) -> Result<(), Stop> {
        if outcome.number == 0 {
            return Ok(());
        }
        let word = outcome.word();
        let kept = match &self.names[..] {
            [] => "nothing is kept".into(),
            names => format!("kept are {}", names.join(", ")),
        };
        let why =
            word.map_or(String::new(), |word| format!("{}: {}", numbered(word), meaning(word)));
        Err(Stop::No(format!("{name}: {why}; {kept}")))
    }
}

/// A name of a state: one word.
fn read_name(text: &str) -> Result<&str, Stop> {
    let fits = |c: char| c.is_ascii_alphanumeric() || c == '-' || c == '_';
    match !text.is_empty() && text.chars().all(fits) {
        true => Ok(text),
        false => trouble(format!("{text:?}: expected a name of letters, digits, - and _")),
    }
}
