//! Document 01's text notation: `row(!?0, ?0)`, `gates(@0, !open, @1)`.
//!
//! ```
//! let symbols = notation::Symbols::parse("open shut gate/1 row/2 gates/*").unwrap();
//! let pattern = symbols.pattern("gates(@0, !open, @1)").unwrap();
//! assert_eq!(pattern, [4, 3, 232, 248, 0, 233]);
//! assert_eq!(symbols.show_pattern(&pattern).unwrap(), "gates(@0, !open, @1)");
//!
//! let error = symbols.term("row(open)").unwrap_err();
//! assert_eq!(error.to_string(), "column 9: row takes 2 children, this is 1");
//! ```
//!
//! A text of rules or states has one in each line, which may have a name:
//!
//! ```
//! let text = "same: row(?0, ?0)  # both places alike\n\nrow(open, !shut)";
//! let names: Vec<_> = notation::entries(text).map(|entry| entry.name).collect();
//! assert_eq!(names, [Some("same"), None]);
//! ```
//!
//! Symbols of one meaning are joined by `=`, which makes a class list:
//!
//! ```
//! let symbols = notation::Symbols::parse("open held gate/1 stopped=held door=gate").unwrap();
//! assert_eq!(symbols.table(), [0, 0, 1, 0, 1]);
//! assert_eq!(symbols.classes(), [0, 1, 2, 1, 2]);
//! ```
//!
//! A move has a rule and a template, which says what the state becomes:
//!
//! ```
//! let symbols = notation::Symbols::parse("open shut gates/*").unwrap();
//! let moved = symbols.parsed_move("gates(@0, shut) => gates(@0, open)").unwrap();
//! assert_eq!((moved.rule.bytes, moved.template.bytes), (vec![2, 2, 232, 1], vec![2, 2, 232, 0]));
//!
//! let error = symbols.parsed_move("gates(@0) => gates(@0").unwrap_err();
//! assert_eq!(error.to_string(), "column 22: expected , or ) within gates");
//! ```
//!
//! Texts are read alike in both editions; [`Symbols::language`] is what a call is told of them.

mod entries;
mod moves;
mod parse;
mod show;
mod symbols;

pub use entries::{entries, Entry};
pub use moves::{ParsedMove, ARROW};
pub use parse::Parsed;
pub use show::Shown;
pub use symbols::Symbols;

/// What is wrong with a text or with bytes, and where.
#[derive(Clone, Debug, PartialEq, Eq)]
pub struct Error {
    pub place: Place,
    pub message: String,
}

/// A place in a text, from 1 on, or in bytes, from 0 on.
#[derive(Clone, Copy, Debug, PartialEq, Eq)]
pub enum Place {
    /// Line and column of a text with several lines, the column in characters.
    Text { line: usize, column: usize },
    /// Offset in bytes.
    Bytes(usize),
}

impl std::fmt::Display for Error {
    fn fmt(&self, f: &mut std::fmt::Formatter) -> std::fmt::Result {
        match self.place {
            Place::Text { line: 1, column } => write!(f, "column {column}: ")?,
            Place::Text { line, column } => write!(f, "line {line}, column {column}: ")?,
            Place::Bytes(at) => write!(f, "byte {at}: ")?,
        }
        f.write_str(&self.message)
    }
}

impl std::error::Error for Error {}

impl Error {
    /// An error at an offset of a text.
    fn in_text(text: &str, at: usize, message: impl Into<String>) -> Self {
        let before = &text[..at];
        let line = before.matches('\n').count() + 1;
        let column = before.rsplit('\n').next().unwrap_or("").chars().count() + 1;
        Error { place: Place::Text { line, column }, message: message.into() }
    }

    /// An error at an offset of bytes.
    fn in_bytes(at: usize, message: impl Into<String>) -> Self {
        Error { place: Place::Bytes(at), message: message.into() }
    }
}
