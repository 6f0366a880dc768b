//! Replacement: a template with the parts of a rule's first answer put in.

use crate::{fault::Fault, grammar::Grammar, pattern::Step, record::Record, table::Table};
use interface::{Answer, Word, FIRST_NAME, LIST, NAMES, NESTING_LIMIT, RECORD_LIMIT};
use std::ops::Range;

/// Checks that an accepted pattern, by its steps, is a template: no complement, and no other names
/// and run names than these, which have a bit each. Number 18, or accepted.
pub fn check(template: &[Step], free: u64) -> Result<(), Fault> {
    let mut at = 0;
    for step in template {
        match *step {
            Step::Complement { .. } => return Err(Fault::new(Word::Loose, at)),
            Step::Name { place, .. } | Step::Run { place, .. } if free >> place & 1 == 0 => {
                return Err(Fault::new(Word::Loose, at));
            }
            Step::Close { .. } | Step::Done => {}
            Step::List { .. } => at += 2,
            _ => at += 1,
        }
    }
    Ok(())
}

/// Why a result is no record, and the offset of the template's node at which that is seen.
#[derive(Clone, Copy, Debug, PartialEq, Eq)]
pub struct Outgrown {
    pub limit: Limit,
    pub at: usize,
}

/// The limits of a record.
#[derive(Clone, Copy, Debug, PartialEq, Eq)]
pub enum Limit {
    Bytes,
    Nesting,
    Elements,
}

/// A template with the parts of an answer put in, in edition 2 spliced, if that is a record.
pub fn filled(
    grammar: Grammar,
    template: &[u8],
    record: Record,
    answer: &Answer,
) -> Result<Vec<u8>, Outgrown> {
    let output = Vec::with_capacity(template.len() + record.bytes.len());
    let mut filler = Filler { grammar, template, record, answer, at: 0, node: 0, output };
    filler.node(1, None)?;
    Ok(filler.output)
}

struct Filler<'a> {
    grammar: Grammar<'a>,
    template: &'a [u8],
    record: Record<'a>,
    answer: &'a Answer,
    at: usize,
    /// Where the template's present node starts.
    node: usize,
    output: Vec<u8>,
}

impl Filler<'_> {
    /// Puts a node of the template and what is below it, and gives the number of terms that it comes
    /// to. With a class around, a list of that class is put as its elements.
    fn node(&mut self, nesting: usize, around: Option<u8>) -> Result<usize, Outgrown> {
        let node = self.at;
        (self.node, self.at) = (node, node + 1);
        let code = self.template[node];
        if code >= FIRST_NAME {
            return self.part(usize::from(code - FIRST_NAME), nesting, around);
        }
        self.put(&[code])?;
        let children = self.grammar.table.children(code).unwrap_or(0);
        if children != LIST {
            for _ in 0..children {
                self.node(nesting + 1, None)?;
            }
            return Ok(1);
        }
        let (children, number) = (self.template[self.at], self.output.len());
        self.at += 1;
        self.put(&[0])?;
        let class = self.grammar.spliced.then(|| self.grammar.class(code));
        let mut elements = 0;
        for _ in 0..children {
            elements += self.node(nesting + 1, class)?;
        }
        let elements = u8::try_from(elements);
        self.output[number] =
            elements.map_err(|_| Outgrown { limit: Limit::Elements, at: node })?;
        Ok(1)
    }

    /// Puts what a name or run name stands for.
    fn part(
        &mut self,
        place: usize,
        nesting: usize,
        around: Option<u8>,
    ) -> Result<usize, Outgrown> {
        let (part, terms) = match place < NAMES {
            true => (self.answer.name(place), Some(1)),
            false => (self.answer.run(place - NAMES), self.answer.terms(place - NAMES)),
        };
        let (part, terms) = part.zip(terms).expect("a template's names are free in the rule");
        let Some(class) = around else {
            self.terms(part, nesting)?;
            return Ok(terms.into());
        };
        let (mut at, mut elements) = (part.start, 0);
        while at < part.end {
            let (symbol, end) = (self.record.bytes[at], usize::from(self.record.ends[at]));
            let list = self.grammar.table.children(symbol) == Some(LIST);
            if list && self.grammar.class(symbol) == class {
                elements += usize::from(self.record.bytes[at + 1]);
                self.terms(at + 2..end, nesting)?;
            } else {
                elements += 1;
                self.terms(at..end, nesting)?;
            }
            at = end;
        }
        Ok(elements)
    }

    /// Puts terms of the record as they are.
    fn terms(&mut self, part: Range<usize>, nesting: usize) -> Result<(), Outgrown> {
        let bytes = &self.record.bytes[part];
        // Terms nest at most as deep as they have bytes.
        let fits = nesting + bytes.len() <= NESTING_LIMIT + 1
            || nesting + height(self.grammar.table, bytes) <= NESTING_LIMIT + 1;
        match fits {
            true => self.put(bytes),
            false => self.outgrown(Limit::Nesting),
        }
    }

    fn put(&mut self, bytes: &[u8]) -> Result<(), Outgrown> {
        if self.output.len() + bytes.len() > RECORD_LIMIT {
            return self.outgrown(Limit::Bytes);
        }
        self.output.extend_from_slice(bytes);
        Ok(())
    }

    fn outgrown(&self, limit: Limit) -> Result<(), Outgrown> {
        Err(Outgrown { limit, at: self.node })
    }
}

/// The nesting of the terms that are in these bytes, one after the other.
fn height(table: Table, bytes: &[u8]) -> usize {
    let (mut open, mut nesting, mut height, mut at) = ([0; NESTING_LIMIT], 0, 0, 0);
    while let Some(&symbol) = bytes.get(at) {
        at += 1;
        let mut children = table.children(symbol).unwrap_or(0);
        if children == LIST {
            children = bytes[at];
            at += 1;
        }
        open[nesting] = children;
        nesting += 1;
        height = height.max(nesting);
        while nesting > 0 && open[nesting - 1] == 0 {
            nesting -= 1;
            if nesting > 0 {
                open[nesting - 1] -= 1;
            }
        }
    }
    height
}
