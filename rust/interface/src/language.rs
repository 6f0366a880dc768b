//! What a call is told of its language.

use crate::{EDITION_MARK, TABLE_LIMIT};

/// The edition of the rule language, 1 or 2. A call that is told another number gives 9.
#[derive(Clone, Copy, Debug, PartialEq, Eq)]
#[repr(transparent)]
pub struct Edition(pub u32);

impl Edition {
    pub const ONE: Edition = Edition(1);
    /// A list directly inside a list of the same symbol, up to class, means its elements in its
    /// place; records and patterns come already spliced.
    pub const TWO: Edition = Edition(2);

    /// What a sheet's count has added.
    pub fn mark(self) -> u16 {
        match self {
            Edition::TWO => EDITION_MARK,
            _ => 0,
        }
    }
}

/// The edition of a sheet, which its count tells.
pub fn edition_of(sheet: &[u8]) -> Edition {
    match sheet.first_chunk() {
        Some(&count) if u16::from_le_bytes(count) >= EDITION_MARK => Edition::TWO,
        _ => Edition::ONE,
    }
}

/// A table, a class list if one is brought, and the edition.
#[derive(Clone, Copy, Debug)]
pub struct Language<'a> {
    pub table: &'a [u8],
    pub classes: Option<&'a [u8]>,
    pub edition: Edition,
}

impl<'a> Language<'a> {
    /// A table alone, in edition 1.
    pub fn simple(table: &'a [u8]) -> Self {
        Language { table, classes: None, edition: Edition::ONE }
    }

    /// The same with a class list.
    pub fn with_classes(self, classes: &'a [u8]) -> Self {
        Language { classes: Some(classes), ..self }
    }

    /// The same in another edition.
    pub fn in_edition(self, edition: Edition) -> Self {
        Language { edition, ..self }
    }

    /// The class list that is brought, or else the one in which each symbol is its own class. A
    /// table over its limit is refused before a class list is read.
    pub fn class_list(self) -> &'a [u8] {
        self.classes.unwrap_or(&OWN[..self.table.len().min(TABLE_LIMIT)])
    }
}

/// Each symbol as its own class.
const OWN: &[u8; TABLE_LIMIT] = &{
    let (mut own, mut symbol) = ([0; TABLE_LIMIT], 0);
    while symbol < TABLE_LIMIT {
        own[symbol] = symbol as u8;
        symbol += 1;
    }
    own
};
