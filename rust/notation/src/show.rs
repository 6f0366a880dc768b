//! Bytes to text.

use crate::{Error, Symbols};
use interface::*;
use std::fmt::Write;
use std::ops::Range;

/// The text of a record or pattern, and where each of its nodes stands in it.
#[derive(Clone, Debug, PartialEq, Eq)]
pub struct Shown {
    pub text: String,
    /// For each node in order the offset of its first byte, and its part of the text.
    nodes: Vec<(usize, Range<usize>)>,
}

impl Shown {
    /// The part of the text that the nodes within a part of the bytes have. Where no node starts in
    /// it, that is the empty part at which it stands: before the node that starts there, or after the
    /// last one, within the root.
    pub fn part(&self, bytes: Range<usize>) -> Range<usize> {
        let first = self.nodes.partition_point(|(at, _)| *at < bytes.start);
        let last = self.nodes.partition_point(|(at, _)| *at < bytes.end);
        let nodes = self.nodes.get(first..last).unwrap_or(&[]);
        match (nodes.iter().map(|(_, part)| part.end).max(), self.nodes.get(first)) {
            (Some(end), Some((_, part))) => part.start..end,
            (_, Some((_, part))) => part.start..part.start,
            (_, None) => {
                let within_root = self.text.len().saturating_sub(1);
                let end = self.nodes.last().map_or(0, |(_, part)| part.end.min(within_root));
                end..end
            }
        }
    }
}

/// Writes one record or pattern, which must take all the bytes.
pub(crate) fn one(symbols: &Symbols, bytes: &[u8], pattern: bool) -> Result<Shown, Error> {
    let mut writer = Writer::new(symbols, bytes, pattern);
    writer.node(1)?;
    match writer.at == bytes.len() {
        true => Ok(Shown { text: writer.text, nodes: writer.nodes }),
        false => Err(Error::in_bytes(writer.at, "bytes after the last node")),
    }
}

/// Writes the terms that the bytes hold, one after the other.
pub(crate) fn run(symbols: &Symbols, bytes: &[u8]) -> Result<String, Error> {
    let mut writer = Writer::new(symbols, bytes, false);
    while writer.at < bytes.len() {
        writer.comma(writer.at > 0);
        writer.node(1)?;
    }
    Ok(writer.text)
}

struct Writer<'a> {
    symbols: &'a Symbols,
    bytes: &'a [u8],
    pattern: bool,
    at: usize,
    text: String,
    nodes: Vec<(usize, Range<usize>)>,
}

impl<'a> Writer<'a> {
    fn new(symbols: &'a Symbols, bytes: &'a [u8], pattern: bool) -> Self {
        Writer { symbols, bytes, pattern, at: 0, text: String::new(), nodes: Vec::new() }
    }

    fn node(&mut self, nesting: usize) -> Result<(), Error> {
        if nesting > NESTING_LIMIT {
            return Err(Error::in_bytes(self.at, "nesting over 32"));
        }
        let first = self.nodes.len();
        // A complement's child has the complement's own nesting.
        while self.pattern && self.bytes.get(self.at) == Some(&COMPLEMENT) {
            self.starts();
            self.text.push('!');
            self.at += 1;
        }
        let (start, last) = (self.at, self.nodes.len());
        self.starts();
        match self.byte()? {
            code @ FIRST_NAME..FIRST_RUN if self.pattern => self.marked('?', code - FIRST_NAME),
            code @ FIRST_RUN..COMPLEMENT if self.pattern => self.marked('@', code - FIRST_RUN),
            code => self.symbol(code, start, nesting),
        }?;
        let end = self.text.len();
        self.nodes[first..=last].iter_mut().for_each(|(_, part)| part.end = end);
        Ok(())
    }

    /// A node starts here; where it ends is not known yet.
    fn starts(&mut self) {
        self.nodes.push((self.at, self.text.len()..0));
    }

    fn marked(&mut self, mark: char, number: u8) -> Result<(), Error> {
        write!(self.text, "{mark}{number}").expect("a String takes any text");
        Ok(())
    }

    fn symbol(&mut self, code: u8, start: usize, nesting: usize) -> Result<(), Error> {
        let Some(name) = self.symbols.name(code) else {
            return Err(Error::in_bytes(start, format!("{code} is not in the table")));
        };
        self.text.push_str(name);
        let children = match self.symbols.table()[usize::from(code)] {
            0 => return Ok(()),
            LIST => self.byte()?,
            children => children,
        };
        self.text.push('(');
        for i in 0..children {
            self.comma(i > 0);
            self.node(nesting + 1)?;
        }
        self.text.push(')');
        Ok(())
    }

    fn comma(&mut self, wanted: bool) {
        self.text.push_str(if wanted { ", " } else { "" });
    }

    fn byte(&mut self) -> Result<u8, Error> {
        let missing = || Error::in_bytes(self.at, "the bytes end before the last node");
        let byte = *self.bytes.get(self.at).ok_or_else(missing)?;
        self.at += 1;
        Ok(byte)
    }
}
