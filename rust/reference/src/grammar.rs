//! What is read in a language: its table, its class list and its edition, once accepted.

use crate::{classes::Classes, fault::Fault, table::Table};
use interface::{Edition, Language, Word};

/// An accepted language.
#[derive(Clone, Copy, Debug)]
pub struct Grammar<'a> {
    pub table: Table<'a>,
    /// The class list, if one is brought.
    pub classes: Option<Classes<'a>>,
    /// Whether records and patterns come spliced: edition 2.
    pub spliced: bool,
}

impl<'a> Grammar<'a> {
    /// Reads a language: numbers 9, 1, 14, or accepted.
    pub fn read(language: Language<'a>) -> Result<Self, Fault> {
        let Language { table, classes, edition } = language;
        check_edition(edition)?;
        let table = Table::read(table)?;
        let classes = classes.map(|list| Classes::read(table, list)).transpose()?;
        Ok(Grammar { table, classes, spliced: edition == Edition::TWO })
    }

    /// The class of a symbol of the table.
    pub fn class(self, symbol: u8) -> u8 {
        self.classes.map_or(symbol, |classes| classes.of(symbol))
    }

    /// Whether a list symbol directly inside a node of another symbol is unspliced; symbols of one
    /// class have the same byte in the table.
    pub fn unspliced(self, outer: u8, list: u8) -> bool {
        self.spliced && self.class(outer) == self.class(list)
    }
}

/// Checks that there is such an edition: number 9, or accepted.
pub fn check_edition(edition: Edition) -> Result<(), Fault> {
    match edition {
        Edition::ONE | Edition::TWO => Ok(()),
        _ => Err(Fault::new(Word::Directory, 0)),
    }
}
