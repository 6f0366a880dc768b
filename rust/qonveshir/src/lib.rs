//! The command line `qonveshir`. Each command is a module with a [`Command`], which has its usage,
//! its help and its function; [`COMMANDS`] lists them all.

mod check;
mod command;
mod console;
mod cost;
mod editions;
mod example;
mod explain;
mod files;
mod folder;
mod kind;
mod marks;
mod matching;
mod move_sheets;
mod moves;
mod play;
mod progress;
mod report;
mod session;
mod sheets;
mod splice;
mod stored;
mod terminal;
pub mod trace;
mod why;

pub use command::{Command, COMMANDS};
pub use console::{Console, Look};

use files::{read, read_symbols, write};
use interface::Library;
use std::fmt;

/// The library that the commands call, and its name.
#[cfg(feature = "link")]
pub const ENGINE: (&dyn Library, &str) = (&proved::Proved, "the proved library");
#[cfg(not(feature = "link"))]
pub const ENGINE: (&dyn Library, &str) =
    (&reference::Reference, "the independent implementation; the proved library is not linked");

/// Why a command stops: refused or not found, which is status 1, or trouble, which is status 2; or
/// all is said, and the status is left.
pub enum Stop {
    No(String),
    Trouble(String),
    Said(u8),
}

/// What a command prints on success.
pub type Reply = Result<String, Stop>;

fn trouble<T>(error: impl fmt::Display) -> Result<T, Stop> {
    Err(Stop::Trouble(error.to_string()))
}

/// Runs a command line, prints what it comes to, and gives the exit status.
pub fn run(arguments: &[&str], console: &mut Console) -> u8 {
    let (text, status) = match reply(arguments, console) {
        Ok(text) => (text, 0),
        Err(Stop::No(text)) => (text + "\n", 1),
        Err(Stop::Trouble(text)) => return console.troubled(text),
        Err(Stop::Said(status)) => return status,
    };
    match console.print(&text) {
        Ok(_) => status,
        Err(error) => console.troubled(error),
    }
}

fn reply(arguments: &[&str], console: &mut Console) -> Reply {
    match arguments {
        ["--help" | "-h" | "help"] => Ok(command::help()),
        ["--version"] => Ok(format!("qonveshir {}, with {}\n", interface::VERSION, ENGINE.1)),
        [name, rest @ ..] => match COMMANDS.iter().find(|command| command.name == *name) {
            Some(command) => command.reply(rest, console),
            None => trouble(format!("{name}: no such command; see qonveshir --help")),
        },
        [] => trouble("a wrong call; see qonveshir --help"),
    }
}
