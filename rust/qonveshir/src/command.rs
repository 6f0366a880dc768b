//! The commands, and their help.

use crate::{
    check, cost, example, explain, matching, moves, play, report, session, sheets, splice, stored,
    trouble, why, Console, Reply, Stop,
};

/// Every command, in the order in which the help has them.
pub const COMMANDS: &[Command] = &[
    matching::MATCH,
    why::WHY,
    example::EXAMPLE,
    moves::APPLY,
    moves::LOOK,
    session::SESSION,
    play::PLAY,
    sheets::PACK,
    sheets::UNPACK,
    check::CHECK,
    report::REPORT,
    cost::COST,
    splice::SPLICE,
    stored::STORE,
    stored::RESTORE,
    explain::EXPLAIN,
];

/// A command.
pub struct Command {
    pub name: &'static str,
    /// Each way to call it, without `qonveshir`, and what that does.
    pub usage: &'static [(&'static str, &'static str)],
    /// What its own help says further.
    pub help: &'static str,
    /// Runs it on the arguments that follow its name.
    pub run: fn(&[&str], &mut Console) -> Reply,
}

impl Command {
    /// Runs the command, or shows its help where that is asked for.
    pub fn reply(&self, arguments: &[&str], console: &mut Console) -> Reply {
        match arguments.iter().any(|argument| matches!(*argument, "--help" | "-h")) {
            true => Ok(self.own_help()),
            false => (self.run)(arguments, console),
        }
    }

    fn own_help(&self) -> String {
        let blank = if self.help.is_empty() { "" } else { "\n" };
        format!("usage:\n{}{blank}{}\n{TERMS}\n{STATUS}", usage(self), self.help)
    }
}

/// What a command says to arguments that are none of its own.
pub fn wrong_call<T>(name: &str) -> Result<T, Stop> {
    trouble(format!("a wrong call; see qonveshir {name} --help"))
}

/// Takes an option and its value out of the arguments, wherever they stand: these, if they are there,
/// and the rest.
pub fn taken<'a>(arguments: &[&'a str], option: &str) -> (Vec<&'a str>, Vec<&'a str>) {
    let mut rest = arguments.to_vec();
    let at = rest.iter().position(|argument| *argument == option).unwrap_or(rest.len());
    (rest.drain(at..rest.len().min(at + 2)).collect(), rest)
}

/// Takes an option's value out of the arguments of a command, wherever it stands; else it has its
/// default.
pub fn valued<'a, T>(
    name: &str,
    arguments: &[&'a str],
    option: &str,
    default: T,
    read: impl FnOnce(&str) -> Result<T, Stop>,
) -> Result<(T, Vec<&'a str>), Stop> {
    let (option, rest) = taken(arguments, option);
    match option[..] {
        [] => Ok((default, rest)),
        [_, value] => Ok((read(value)?, rest)),
        _ => wrong_call(name),
    }
}

/// The help of the whole command line.
pub fn help() -> String {
    let usages: String = COMMANDS.iter().map(usage).collect();
    format!(
        "qonveshir: matches rules against states and makes moves\n\nusage:\n{usages}  \
         qonveshir COMMAND --help, qonveshir --help, qonveshir --version\n\n{TERMS}\n{STATUS}"
    )
}

const TERMS: &str = "\
SYMBOLS is a text file of names in order, or these names themselves in one
argument with a blank in it, such as 'open held gate/1 row/2 gates/*
stopped=held': a number of children follows /, and * is a list; = is followed by
a symbol named before, of the same meaning and as many children. Symbols of one
meaning count as the same in a match. Rules and states are written as in
'gates(@0, !open, @1)' and 'gates(open, held)'. A TEXT file has one in each
line, which may have a name before it, as in `one-shut: gates(@0, shut, @1)`; #
starts a comment and empty lines are passed over. A MOVE is a rule and a
template, as in 'gates(@0, shut) => gates(@0, open)'. TABLE, CLASSES, SHEET,
RULES, TEMPLATES and FILE are in bytes. docs/GUIDE.md says how to write rules.

E is the edition of the rule language: 1, if not given, or 2, in which rules and
states have no list directly inside a list of the same symbol or meaning;
`qonveshir splice` puts its elements in its place. A sheet tells its edition.
";

const STATUS: &str = "\
exit status: 0 done, bound or accepted; 1 none, spent or refused; 2 a wrong
call, a file that can't be read or written, or text that can't be read
";

/// Characters in a line of help, and what stands before what a call does.
const WIDTH: usize = 80;
const MARGIN: &str = "      ";

/// The ways to call a command, each with what it does below.
fn usage(command: &Command) -> String {
    let way = |(call, does): &(&str, &str)| format!("  qonveshir {call}\n{}", filled(does));
    command.usage.iter().map(way).collect()
}

/// A text in lines that fit.
fn filled(text: &str) -> String {
    let (mut lines, mut line) = (String::new(), MARGIN.to_string());
    for word in text.split_whitespace() {
        if line.len() + word.len() > WIDTH {
            lines = lines + line.trim_end() + "\n";
            line = MARGIN.into();
        }
        line = line + word + " ";
    }
    lines + line.trim_end() + "\n"
}
