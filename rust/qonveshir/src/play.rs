//! `play`: a game of a loader and a sender.

use crate::command::{wrong_call, Command};
use crate::explain::stop;
use crate::files::{read_entries, Named};
use crate::kind::Kind;
use crate::marks::{coloured, GREEN, RED};
use crate::matching::{read_allowance, ALLOWANCE};
use crate::move_sheets::{read_moves, Moves};
use crate::progress::Progress;
use crate::sheets::refuse_line;
use crate::{editions, read_symbols, trouble, Console, Look, Reply, Stop, ENGINE};
use interface::{Edition, Language, Opening, Outcome, Side, Word};
use notation::Symbols;
use std::slice;

pub const PLAY: Command = Command {
    name: "play",
    usage: &[(
        "play FOLDER --turns N [OPTION]...",
        "say whether a loader can bring about a goal in N turns, 0 to 6, however a sender moves, and \
         by which move first; an OPTION is --plan for the whole plan, --start NAME for a state of \
         states.txt, --allowance N for that of each search, 100,000 if not given, or --edition E",
    )],
    help: "\
The folder has symbols.txt; loader.txt and sender.txt, the moves of each, a line
for each, which may have a name; goal.txt, one rule; and start.txt, one state,
or with --start NAME the state of that name in states.txt. The loader begins. A
move is one's own rule that holds of the state, by its first answer, and the
state that its template gives; one that outgrows a state is none. Whoever has no
move passes, and a pass is a turn.

`forced`, which is status 0, says that the loader has moves such that, however
the sender moves, some state on the way satisfies the goal, the start included;
it tells the loader's move, the first in the text that still forces it, and the
state after it. A plan has a line for each state, and below it, further in, what
can come next: the loader's one move, or each of the sender's. `none` says that
the sender can hinder it, `spent` that a search counted over the allowance.
",
    run: play,
};

/// The texts of a folder: the loader's moves and the sender's, the goal, and where the start is.
const TEXTS: [&str; 4] = ["loader.txt", "sender.txt", "goal.txt", "start.txt"];
/// Where a start is named.
const STATES: &str = "states.txt";

/// Plays by the arguments: a folder and options, in any order.
fn play(arguments: &[&str], console: &mut Console) -> Reply {
    let asked = Asked::read(arguments)?;
    let symbols = read_symbols(&format!("{}/symbols.txt", asked.folder))?;
    let game = Game::read(&asked, &symbols)?;
    let (text, opening) = game.first_move(asked.turns, console.look)?;
    match asked.plan {
        true => game.print_plan(asked.turns, &text, console),
        false => Ok(text + &game.shown_first(opening)?),
    }
}

/// What the arguments ask for.
struct Asked<'a> {
    folder: &'a str,
    turns: u32,
    /// The name of the start, if it is one of several states.
    start: Option<&'a str>,
    plan: bool,
    allowance: u32,
    edition: Edition,
}

impl<'a> Asked<'a> {
    fn read(arguments: &[&'a str]) -> Result<Self, Stop> {
        let (edition, arguments) = editions::taken(arguments)?;
        let (mut folder, mut turns, mut start) = (None, None, None);
        let (mut plan, mut allowance) = (false, ALLOWANCE);
        let mut rest = &arguments[..];
        while !rest.is_empty() {
            match rest {
                ["--plan", later @ ..] => (plan, rest) = (true, later),
                ["--turns", number, later @ ..] => {
                    (turns, rest) = (Some(read_turns(number)?), later)
                }
                ["--start", name, later @ ..] => (start, rest) = (Some(*name), later),
                ["--allowance", number, later @ ..] => {
                    (allowance, rest) = (read_allowance(number)?, later)
                }
                [path, later @ ..] if folder.is_none() && !path.starts_with("--") => {
                    (folder, rest) = (Some(*path), later)
                }
                _ => return wrong_call("play"),
            }
        }
        let (Some(folder), Some(turns)) = (folder, turns) else { return wrong_call("play") };
        let edition = edition.unwrap_or(Edition::ONE);
        Ok(Asked { folder, turns, start, plan, allowance, edition })
    }
}

fn read_turns(number: &str) -> Result<u32, Stop> {
    number.parse().or_else(|_| trouble(format!("--turns {number}: expected 0 to 6")))
}

/// The texts of a folder, read.
struct Game<'a> {
    symbols: &'a Symbols,
    language: Language<'a>,
    /// The loader's moves and the sender's.
    sides: [Moves; 2],
    goal: Vec<u8>,
    start: Vec<u8>,
    allowance: u32,
}

/// The sides, by their places.
const SIDES: [&str; 2] = ["loader", "sender"];

impl<'a> Game<'a> {
    fn read(asked: &Asked, symbols: &'a Symbols) -> Result<Self, Stop> {
        let Asked { folder, edition, start, allowance, .. } = *asked;
        let [loader, sender, goal, one_start] = TEXTS.map(|name| format!("{folder}/{name}"));
        let moves = |path| read_moves(edition, symbols, path);
        let sides = [moves(&loader)?, moves(&sender)?];
        let language = symbols.language(edition);
        let goal = one(Kind::Rule, symbols, language, &goal, None)?;
        let path = if start.is_some() { format!("{folder}/{STATES}") } else { one_start };
        let start = one(Kind::State, symbols, language, &path, start)?;
        Ok(Game { symbols, language, sides, goal, start, allowance })
    }

    /// What the game comes to from a state with so many turns.
    fn outcome(&self, turns: u32, state: &[u8]) -> Outcome {
        let [loader, sender] = self.sides.each_ref().map(|moves| {
            let [rules, templates] = &moves.sheets;
            Side { rules, templates }
        });
        let (language, goal) = (self.language, &self.goal);
        let _progress = Progress::of_game(self.searches(turns), self.allowance);
        ENGINE.0.play(turns, language, loader, sender, goal, state, self.allowance)
    }

    /// That the game is forced, as a line, and what the loader begins with.
    fn first_move(&self, turns: u32, look: Look) -> Result<(String, Opening), Stop> {
        let outcome = self.outcome(turns, &self.start);
        let word = |text: &str, colour| coloured(text, colour, look);
        let no = |text: String| Err(Stop::No(text));
        match (outcome.opening(), outcome.word()) {
            (Some(opening), _) => {
                let told = match opening {
                    Opening::NoMove => "no move is needed".into(),
                    Opening::Pass => "the loader passes".into(),
                    Opening::Rule(rule) => format!("the loader's move is {}", self.name(0, rule)?),
                };
                Ok((format!("{}: {told}\n", word("forced", GREEN)), opening))
            }
            (_, Some(Word::None)) => no(word(Word::None.text(), RED)),
            (_, Some(Word::Spent)) => {
                no(format!("{} {}", word(Word::Spent.text(), RED), outcome.count))
            }
            _ => stop("the game", outcome, ""),
        }
    }

    /// The most searches that a game can have.
    fn searches(&self, turns: u32) -> usize {
        let numbers = self.sides.each_ref().map(|moves| moves.named.len());
        let (mut states, mut searches) = (1_usize, 0_usize);
        for turn in 0..=turns.min(interface::TURNS_LIMIT) {
            let number = numbers[turn as usize % 2];
            searches = searches.saturating_add(states.saturating_mul(number + 1));
            states = states.saturating_mul(number.max(1));
        }
        searches
    }

    /// A move's name, or its notation without blanks.
    fn name(&self, side: usize, rule: usize) -> Result<String, Stop> {
        let Named { name, bytes: [rule, template], .. } = &self.sides[side].named[rule];
        match name {
            Some(name) => Ok(name.clone()),
            None => Ok(self.symbols.show_move(rule, template).or_else(trouble)?.replace(' ', "")),
        }
    }

    /// The state that one of a side's moves gives, if it is a move there.
    fn moved(&self, side: usize, rule: usize, state: &[u8]) -> Option<Vec<u8>> {
        let [rule, template] = &self.sides[side].named[rule].bytes;
        let (written, next) =
            ENGINE.0.applied(self.language, rule, template, state, self.allowance);
        (written.word() == Some(Word::Bound)).then_some(next)
    }

    /// The state after the loader's first move.
    fn shown_first(&self, opening: Opening) -> Reply {
        let next = match opening {
            Opening::Rule(rule) => self.moved(0, rule, &self.start),
            _ => None,
        };
        next.map_or(Ok(String::new()), |next| Ok(self.shown(&next)? + "\n"))
    }

    fn shown(&self, state: &[u8]) -> Reply {
        self.symbols.show_term(state).or_else(trouble)
    }

    /// Prints what the game comes to, and its plan: a line for each state, when it is found.
    fn print_plan(&self, turns: u32, text: &str, console: &mut Console) -> Reply {
        let read = console.print(text).or_else(trouble)?;
        Plan { game: self, turns, console, read }.from("start", &self.start, 0)?;
        Ok(String::new())
    }
}

/// The plan of a forced game, while it is printed.
struct Plan<'a, 'b, 'c> {
    game: &'a Game<'a>,
    turns: u32,
    console: &'b mut Console<'c>,
    /// Whether what is printed is still read.
    read: bool,
}

impl Plan<'_, '_, '_> {
    /// Prints the state after so many turns, with what led there, and what can come of it.
    fn from(&mut self, led: &str, state: &[u8], turn: u32) -> Result<(), Stop> {
        if !self.read {
            return Ok(());
        }
        let (game, margin) = (self.game, "  ".repeat(turn as usize));
        let reached = game.outcome(0, state).opening().is_some();
        let mark = if reached { coloured("  (goal)", GREEN, self.console.look) } else { "".into() };
        let line = format!("{margin}{led}: {}{mark}\n", game.shown(state)?);
        self.read = self.console.print(&line).or_else(trouble)?;
        if reached {
            return Ok(());
        }
        let (side, mut moved) = (turn as usize % 2, false);
        for rule in self.to_follow(side, state, turn) {
            if let Some(next) = game.moved(side, rule, state) {
                moved = true;
                let led = format!("{} {}", SIDES[side], game.name(side, rule)?);
                self.from(&led, &next, turn + 1)?;
            }
        }
        match moved || turn == self.turns {
            true => Ok(()),
            false => self.from(&format!("{} passes", SIDES[side]), state, turn + 1),
        }
    }

    /// The rules to follow: of the loader the one that forces the goal, of the sender all.
    fn to_follow(&self, side: usize, state: &[u8], turn: u32) -> Vec<usize> {
        let game = self.game;
        match (side, self.turns.checked_sub(turn)) {
            (0, Some(left)) => match game.outcome(left, state).opening() {
                Some(Opening::Rule(rule)) => vec![rule],
                _ => Vec::new(),
            },
            _ => (0..game.sides[side].named.len()).collect(),
        }
    }
}

/// The one entry of a text, or the one of that name, if it is accepted.
fn one(
    kind: Kind,
    symbols: &Symbols,
    language: Language,
    path: &str,
    name: Option<&str>,
) -> Result<Vec<u8>, Stop> {
    let mut named = read_entries(path, kind, symbols)?;
    let what = kind.name();
    if let Some(name) = name {
        named.retain(|entry| entry.name.as_deref() == Some(name));
        if named.is_empty() {
            return trouble(format!("{path}: no {what} is named {name}"));
        }
    }
    let [entry] = &named[..] else {
        return trouble(format!("{path}: expected one {what}, this has {}", named.len()));
    };
    let unspliced = |body: &str| kind.unspliced(symbols, &kind.parse(symbols, body).ok()?);
    match kind.sheet(language, slice::from_ref(&entry.bytes)) {
        Ok(_) => Ok(entry.bytes.clone()),
        Err(refused) => refuse_line(path, refused, &named, unspliced),
    }
}
