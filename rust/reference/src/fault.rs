//! Why an input is refused, and where.

use crate::Refusal;
use interface::Word;

/// A word and the offset of the byte at fault, in the input itself.
#[derive(Clone, Copy, Debug, PartialEq, Eq)]
pub struct Fault {
    pub word: Word,
    pub at: u32,
}

impl Fault {
    pub(crate) fn new(word: Word, at: usize) -> Self {
        Fault { word, at: at as u32 }
    }

    /// The fault as that of a sheet's entry.
    pub(crate) fn of_entry(self, index: usize) -> Refusal {
        Refusal { fault: self, entry: Some(index) }
    }
}
