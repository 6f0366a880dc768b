//! Named symbol tables.

use crate::{parse::Parser, show, Error, Parsed, Shown};
use interface::{Edition, Language, CHILDREN_LIMIT, LIST, TABLE_LIMIT};
use std::fmt;

/// Symbols with their names, their numbers of children and their classes.
///
/// The text form is the names in order, apart by white space: `open` has no children, `gate/1`
/// has one, `gates/*` is a list; `stopped=held` means the same as `held`, which is named before
/// it, and has as many children; `#` starts a comment that goes on to the end of the line.
#[derive(Clone, Debug, PartialEq, Eq)]
pub struct Symbols {
    names: Vec<String>,
    table: Vec<u8>,
    classes: Vec<u8>,
}

/// The part of a text that is at fault, and what is wrong with it.
type Wrong<'a> = (&'a str, String);

impl Symbols {
    /// Reads the text form.
    pub fn parse(text: &str) -> Result<Self, Error> {
        let mut symbols = Symbols { names: Vec::new(), table: Vec::new(), classes: Vec::new() };
        for line in text.lines() {
            for word in line.split('#').next().unwrap_or("").split_whitespace() {
                symbols.add(word).map_err(|(part, message)| {
                    Error::in_text(text, part.as_ptr() as usize - text.as_ptr() as usize, message)
                })?;
            }
        }
        Ok(symbols)
    }

    fn add<'a>(&mut self, word: &'a str) -> Result<(), Wrong<'a>> {
        let (name, children, class) = match word.split_once('=') {
            None => {
                let (name, children) = with_children(word).map_err(|message| (word, message))?;
                (name, children, self.table.len() as u8)
            }
            Some((name, other)) => {
                let class = self.code(other);
                let class =
                    class.ok_or_else(|| (other, format!("{other:?} is not named before")))?;
                (name, self.table[usize::from(class)], self.classes[usize::from(class)])
            }
        };
        if !is_name(name) {
            let message = format!("expected a name of letters, digits, _ and -, found {name:?}");
            return Err((word, message));
        }
        if self.code(name).is_some() {
            return Err((word, format!("{name} is named twice")));
        }
        if self.table.len() == TABLE_LIMIT {
            return Err((word, format!("over {TABLE_LIMIT} symbols")));
        }
        self.names.push(name.into());
        self.table.push(children);
        self.classes.push(class);
        Ok(())
    }

    /// The same symbols with the classes of a class list, in place of those that they have.
    pub fn with_classes(mut self, list: &[u8]) -> Result<Self, Error> {
        let symbols = self.table.len();
        if list.len() != symbols {
            let message = format!("a list for {symbols} symbols, this has {} bytes", list.len());
            return Err(Error::in_bytes(list.len().min(symbols), message));
        }
        for (at, &class) in list.iter().enumerate() {
            let (name, of) = (&self.names[at], usize::from(class));
            let message = match list.get(..=at).and_then(|known| known.get(of)) {
                None => format!("the class of {name} is at most {at}, this is {class}"),
                Some(&own) if own != class => {
                    format!("{} is not its own class, so not that of {name}", self.names[of])
                }
                _ if self.table[of] != self.table[at] => {
                    format!("{name} has not as many children as {}", self.names[of])
                }
                _ => continue,
            };
            return Err(Error::in_bytes(at, message));
        }
        self.classes = list.to_vec();
        Ok(self)
    }

    /// The table's bytes.
    pub fn table(&self) -> &[u8] {
        &self.table
    }

    /// The class list: for each symbol the lowest one of the same meaning.
    pub fn classes(&self) -> &[u8] {
        &self.classes
    }

    /// The language of these symbols and their classes in an edition.
    pub fn language(&self, edition: Edition) -> Language<'_> {
        Language::simple(&self.table).with_classes(&self.classes).in_edition(edition)
    }

    /// The code of a symbol.
    pub fn code(&self, name: &str) -> Option<u8> {
        self.names.iter().position(|known| known == name).map(|code| code as u8)
    }

    /// The name of a symbol.
    pub fn name(&self, code: u8) -> Option<&str> {
        self.names.get(usize::from(code)).map(String::as_str)
    }

    /// Reads a term as a record's bytes.
    pub fn term(&self, text: &str) -> Result<Vec<u8>, Error> {
        Ok(self.parsed_term(text)?.bytes)
    }

    /// Reads a pattern as its bytes.
    pub fn pattern(&self, text: &str) -> Result<Vec<u8>, Error> {
        Ok(self.parsed_pattern(text)?.bytes)
    }

    /// Reads a term as a record's bytes, and tells where each node stands.
    pub fn parsed_term<'a>(&'a self, text: &'a str) -> Result<Parsed<'a>, Error> {
        Parser::new(self, text, false).whole()
    }

    /// Reads a pattern as its bytes, and tells where each node stands.
    pub fn parsed_pattern<'a>(&'a self, text: &'a str) -> Result<Parsed<'a>, Error> {
        Parser::new(self, text, true).whole()
    }

    /// Writes a record as a term.
    pub fn show_term(&self, record: &[u8]) -> Result<String, Error> {
        Ok(self.shown_term(record)?.text)
    }

    /// Writes a pattern.
    pub fn show_pattern(&self, pattern: &[u8]) -> Result<String, Error> {
        Ok(self.shown_pattern(pattern)?.text)
    }

    /// Writes a record as a term, and tells where each node stands.
    pub fn shown_term(&self, record: &[u8]) -> Result<Shown, Error> {
        show::one(self, record, false)
    }

    /// Writes a pattern, and tells where each node stands.
    pub fn shown_pattern(&self, pattern: &[u8]) -> Result<Shown, Error> {
        show::one(self, pattern, true)
    }

    /// Writes a run, which is any number of terms.
    pub fn show_run(&self, run: &[u8]) -> Result<String, Error> {
        show::run(self, run)
    }
}

impl fmt::Display for Symbols {
    fn fmt(&self, f: &mut fmt::Formatter) -> fmt::Result {
        for (i, (name, &children)) in self.names.iter().zip(&self.table).enumerate() {
            let (blank, class) = (if i == 0 { "" } else { " " }, usize::from(self.classes[i]));
            match children {
                _ if class != i => write!(f, "{blank}{name}={}", self.names[class])?,
                0 => write!(f, "{blank}{name}")?,
                LIST => write!(f, "{blank}{name}/*")?,
                _ => write!(f, "{blank}{name}/{children}")?,
            }
        }
        Ok(())
    }
}

/// A word's name and its number of children, or [`LIST`].
fn with_children(word: &str) -> Result<(&str, u8), String> {
    match word.split_once('/') {
        None => Ok((word, 0)),
        Some((name, "*")) => Ok((name, LIST)),
        Some((name, number)) => match number.parse() {
            Ok(children @ 0..=CHILDREN_LIMIT) => Ok((name, children)),
            _ => Err(format!("expected 0 to 8 children or *, found {number:?}")),
        },
    }
}

/// Whether a symbol can be called so: a letter or `_`, then letters, digits, `_` and `-`.
pub(crate) fn is_name(text: &str) -> bool {
    text.starts_with(starts_name) && text.chars().all(continues_name)
}

pub(crate) fn starts_name(c: char) -> bool {
    c.is_ascii_alphabetic() || c == '_'
}

pub(crate) fn continues_name(c: char) -> bool {
    c.is_ascii_alphanumeric() || c == '_' || c == '-'
}
