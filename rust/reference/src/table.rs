//! Symbol tables.

use crate::fault::Fault;
use interface::{Word, CHILDREN_LIMIT, LIST, TABLE_LIMIT};

/// An accepted table.
#[derive(Clone, Copy, Debug)]
pub struct Table<'a>(&'a [u8]);

impl<'a> Table<'a> {
    /// Reads a table: number 1, or accepted.
    pub fn read(bytes: &'a [u8]) -> Result<Self, Fault> {
        if bytes.len() > TABLE_LIMIT {
            return Err(Fault::new(Word::Table, TABLE_LIMIT));
        }
        match bytes.iter().position(|&byte| byte > CHILDREN_LIMIT && byte != LIST) {
            Some(at) => Err(Fault::new(Word::Table, at)),
            None => Ok(Table(bytes)),
        }
    }

    /// The number of symbols.
    pub fn symbols(self) -> usize {
        self.0.len()
    }

    /// The table's byte for a symbol: its number of children, or [`LIST`].
    pub fn children(self, symbol: u8) -> Option<u8> {
        self.0.get(usize::from(symbol)).copied()
    }
}
