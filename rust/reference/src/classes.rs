//! Class lists.

use crate::{fault::Fault, table::Table};
use interface::{Word, LIST};

/// An accepted class list with its table.
#[derive(Clone, Copy, Debug)]
pub struct Classes<'a> {
    table: Table<'a>,
    list: &'a [u8],
}

impl<'a> Classes<'a> {
    /// Reads the class list of a table: number 14, or accepted.
    pub fn read(table: Table<'a>, list: &'a [u8]) -> Result<Self, Fault> {
        let symbols = table.symbols();
        if list.len() != symbols {
            return Err(Fault::new(Word::Class, list.len().min(symbols)));
        }
        let broken = |symbol: usize| {
            let class = list[symbol];
            usize::from(class) > symbol
                || list[usize::from(class)] != class
                || table.children(class) != table.children(symbol as u8)
        };
        match (0..symbols).find(|&symbol| broken(symbol)) {
            Some(at) => Err(Fault::new(Word::Class, at)),
            None => Ok(Classes { table, list }),
        }
    }

    /// The class of a symbol of the table.
    pub fn of(self, symbol: u8) -> u8 {
        self.list[usize::from(symbol)]
    }

    /// The bytes of an accepted record with each symbol replaced by its class.
    pub fn merged(self, record: &[u8]) -> Vec<u8> {
        let mut bytes = record.to_vec();
        let mut at = 0;
        while let Some(symbol) = bytes.get_mut(at) {
            *symbol = self.of(*symbol);
            at += if self.table.children(*symbol) == Some(LIST) { 2 } else { 1 };
        }
        bytes
    }
}
