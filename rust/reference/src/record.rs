//! Records.

use crate::{fault::Fault, grammar::Grammar};
use interface::{Word, LIST, NESTING_LIMIT, RECORD_LIMIT};

/// An accepted record and, for each offset at which a term starts, the offset at which it ends.
#[derive(Clone, Copy, Debug)]
pub struct Record<'a> {
    pub bytes: &'a [u8],
    pub ends: &'a [u16],
}

impl<'a> Record<'a> {
    /// Reads a record: numbers 6, 2, 4, 5, 16, 3, or accepted. The ends are kept in the given
    /// vector.
    pub fn read(grammar: Grammar, bytes: &'a [u8], ends: &'a mut Vec<u16>) -> Result<Self, Fault> {
        ends.clear();
        ends.resize(bytes.len().min(RECORD_LIMIT), 0);
        read_record(grammar, bytes, |start, end| ends[start] = end as u16)?;
        Ok(Record { bytes, ends })
    }

    /// Checks a record: numbers 6, 2, 4, 5, 16, 3, or accepted.
    pub fn check(grammar: Grammar, bytes: &[u8]) -> Result<(), Fault> {
        read_record(grammar, bytes, |_, _| ())
    }
}

/// Reads a record, and tells start and end of each of its terms.
fn read_record(
    grammar: Grammar,
    bytes: &[u8],
    ended: impl FnMut(usize, usize),
) -> Result<(), Fault> {
    if bytes.len() > RECORD_LIMIT {
        return Err(Fault::new(Word::Long, RECORD_LIMIT));
    }
    let end = match grammar.spliced {
        false => read_term::<false>(grammar, bytes, ended)?,
        true => read_term::<true>(grammar, bytes, ended)?,
    };
    if end < bytes.len() {
        return Err(Fault::new(Word::Spare, end));
    }
    Ok(())
}

/// A term whose children are not all read yet.
#[derive(Clone, Copy, Default)]
struct Open {
    start: usize,
    left: u8,
}

/// Reads the term at the start, tells start and end of each of its terms, and gives its own end.
/// With `SPLICED` lists must be so.
fn read_term<const SPLICED: bool>(
    grammar: Grammar,
    bytes: &[u8],
    mut ended: impl FnMut(usize, usize),
) -> Result<usize, Fault> {
    let byte = |at: usize| bytes.get(at).copied().ok_or(Fault::new(Word::Short, at));
    let (mut open, mut nesting, mut at) = ([Open::default(); NESTING_LIMIT], 0, 0);
    loop {
        let start = at;
        let mut children = grammar.table.children(byte(at)?).ok_or(Fault::new(Word::Code, at))?;
        if nesting == NESTING_LIMIT {
            return Err(Fault::new(Word::Deep, at));
        }
        at += 1;
        if children == LIST {
            let outer = open[..nesting].last().map(|outer| bytes[outer.start]);
            if SPLICED && outer.is_some_and(|outer| grammar.unspliced(outer, bytes[start])) {
                return Err(Fault::new(Word::Unspliced, start));
            }
            children = byte(at)?;
            at += 1;
        }
        if children > 0 {
            open[nesting] = Open { start, left: children };
            nesting += 1;
            continue;
        }
        ended(start, at);
        loop {
            let Some(parent) = open[..nesting].last_mut() else { return Ok(at) };
            parent.left -= 1;
            if parent.left > 0 {
                break;
            }
            ended(parent.start, at);
            nesting -= 1;
        }
    }
}
