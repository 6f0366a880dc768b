//! Sheets: a count, pairs of offset and length, and the entries.

use crate::fault::Fault;
use interface::{Edition, Word, EDITION_MARK, RULES_LIMIT, SHEET_LIMIT};
use std::ops::Range;

/// A sheet whose directory is accepted.
#[derive(Clone, Copy, Debug)]
pub struct Sheet<'a> {
    bytes: &'a [u8],
    count: usize,
}

impl<'a> Sheet<'a> {
    /// Reads a sheet's directory: numbers 6 and 9, or accepted.
    pub fn read(bytes: &'a [u8]) -> Result<Self, Fault> {
        let broken = |at| Err(Fault::new(Word::Directory, at));
        if bytes.len() > SHEET_LIMIT {
            return Err(Fault::new(Word::Long, SHEET_LIMIT));
        }
        let Some((first, _)) = bytes.split_first_chunk() else {
            return broken(bytes.len());
        };
        let count = usize::from(u16::from_le_bytes(*first) % EDITION_MARK);
        let mut end = 2 + 4 * count;
        let Some(directory) = bytes.get(2..end) else {
            return broken(bytes.len());
        };
        for (index, pair) in directory.chunks_exact(4).enumerate() {
            let (offset, length) = numbers(pair);
            if offset != end {
                return broken(2 + 4 * index);
            }
            if length == 0 || end + length > bytes.len() {
                return broken(4 + 4 * index);
            }
            end += length;
        }
        if end != bytes.len() {
            return broken(end);
        }
        Ok(Sheet { bytes, count })
    }

    /// The sheet as one of rules: number 6, or accepted.
    pub fn rules(self) -> Result<Self, Fault> {
        if self.count > RULES_LIMIT {
            return Err(Fault::new(Word::Long, 0));
        }
        Ok(self)
    }

    /// Where an entry lies.
    pub fn range(self, index: usize) -> Option<Range<usize>> {
        (index < self.count).then(|| {
            let (offset, length) = numbers(&self.bytes[2 + 4 * index..6 + 4 * index]);
            offset..offset + length
        })
    }

    /// The entries in order.
    pub fn entries(self) -> impl Iterator<Item = &'a [u8]> {
        let directory = &self.bytes[2..2 + 4 * self.count];
        directory.chunks_exact(4).map(move |pair| {
            let (offset, length) = numbers(pair);
            &self.bytes[offset..offset + length]
        })
    }
}

/// Writes a sheet over an output of just its size.
pub(crate) fn write(edition: Edition, entries: &[u8], lengths: &[u16], output: &mut [u8]) {
    let (directory, rest) = output.split_at_mut(2 + 4 * lengths.len());
    rest.copy_from_slice(entries);
    let mut offset = directory.len() as u16;
    let count = lengths.len() as u16 + edition.mark();
    directory[..2].copy_from_slice(&count.to_le_bytes());
    for (pair, &length) in directory[2..].chunks_exact_mut(4).zip(lengths) {
        pair[..2].copy_from_slice(&offset.to_le_bytes());
        pair[2..].copy_from_slice(&length.to_le_bytes());
        offset += length;
    }
}

/// Offset and length of a pair of the directory.
fn numbers(pair: &[u8]) -> (usize, usize) {
    let number = |low, high| usize::from(u16::from_le_bytes([low, high]));
    (number(pair[0], pair[1]), number(pair[2], pair[3]))
}
