//! The stored form of records, in which a list tells the length of its children.

use crate::{fault::Fault, grammar::Grammar, record::Record, table::Table, Refusal};
use interface::{Language, Outcome, Word, LIST, NESTING_LIMIT, RECORD_LIMIT, STORED_LIMIT};

/// Bytes of a list's length.
const LENGTH: usize = 2;
/// Bytes of a list's node: its symbol, its number of children and its length.
const NODE: usize = 2 + LENGTH;

/// Writes the stored form of a record: the language's numbers, the record's, 12, or written.
pub fn store(language: Language, record: &[u8], output: &mut [u8]) -> Result<Outcome, Refusal> {
    let grammar = Grammar::read(language)?;
    Record::check(grammar, record)?;
    let table = grammar.table;
    let size = record.len() + LENGTH * lists(table, record);
    let output = output.get_mut(..size).ok_or(Fault::new(Word::Full, 0))?;
    write_stored(table, record, output);
    Ok(Outcome::counted(Word::Bound, 0, size as u64))
}

/// Writes the old form of a stored record: the language's numbers, the stored record's, 12, or
/// written.
pub fn restore(language: Language, stored: &[u8], output: &mut [u8]) -> Result<Outcome, Refusal> {
    let grammar = Grammar::read(language)?;
    let size = check(grammar, stored)?;
    let output = output.get_mut(..size).ok_or(Fault::new(Word::Full, 0))?;
    write_old(grammar.table, stored, output);
    Ok(Outcome::counted(Word::Bound, 0, size as u64))
}

/// Checks a stored record: numbers 6, 2, 4, 5, 16, 17, 3, 6 of the old form, or its length.
pub fn check(grammar: Grammar, stored: &[u8]) -> Result<usize, Fault> {
    if stored.len() > STORED_LIMIT {
        return Err(Fault::new(Word::Long, STORED_LIMIT));
    }
    let (end, lists) = read_stored(grammar, stored)?;
    if end < stored.len() {
        return Err(Fault::new(Word::Spare, end));
    }
    let size = end - LENGTH * lists;
    match size > RECORD_LIMIT {
        true => Err(Fault::new(Word::Long, RECORD_LIMIT)),
        false => Ok(size),
    }
}

/// The lists of an accepted record.
fn lists(table: Table, record: &[u8]) -> usize {
    let (mut at, mut lists) = (0, 0);
    while let Some(&symbol) = record.get(at) {
        let list = is_list(table, symbol);
        lists += usize::from(list);
        at += 1 + usize::from(list);
    }
    lists
}

fn is_list(table: Table, symbol: u8) -> bool {
    table.children(symbol) == Some(LIST)
}

/// A node whose children are not all done: how many are left and, of a list, where they start and
/// the length that it tells.
#[derive(Clone, Copy, Default)]
struct Open {
    left: u8,
    list: Option<(usize, usize)>,
}

/// Reads the term at the start, and gives its end and the number of its lists.
fn read_stored(grammar: Grammar, bytes: &[u8]) -> Result<(usize, usize), Fault> {
    let byte = |at: usize| bytes.get(at).copied().ok_or(Fault::new(Word::Short, at));
    let (mut open, mut nesting, mut at, mut lists) = ([Open::default(); NESTING_LIMIT], 0, 0, 0);
    loop {
        let symbol = byte(at)?;
        let left = grammar.table.children(symbol).ok_or(Fault::new(Word::Code, at))?;
        let outer = open[..nesting].last().and_then(|outer| outer.list);
        let place = open.get_mut(nesting).ok_or(Fault::new(Word::Deep, at))?;
        *place = Open { left, list: None };
        at += 1;
        if left == LIST {
            if outer.is_some_and(|(start, _)| grammar.unspliced(bytes[start - NODE], symbol)) {
                return Err(Fault::new(Word::Unspliced, at - 1));
            }
            let (left, low) = (byte(at)?, byte(at + 1)?);
            let told = usize::from(low) + 256 * usize::from(byte(at + 2)?);
            at += 3;
            lists += 1;
            *place = Open { left, list: Some((at, told)) };
        }
        nesting += 1;
        while let Some(inner) = open[..nesting].last().filter(|inner| inner.left == 0) {
            if let Some((start, _)) = inner.list.filter(|(start, told)| start + told != at) {
                return Err(Fault::new(Word::Length, start - LENGTH));
            }
            nesting -= 1;
            match open[..nesting].last_mut() {
                Some(parent) => parent.left -= 1,
                None => return Ok((at, lists)),
            }
        }
    }
}

/// Writes the stored form of an accepted record to as many bytes as it has.
fn write_stored(table: Table, record: &[u8], output: &mut [u8]) {
    let (mut open, mut nesting, mut at, mut to) = ([Open::default(); NESTING_LIMIT], 0, 0, 0);
    while let Some(&symbol) = record.get(at) {
        output[to] = symbol;
        let mut node = Open { left: table.children(symbol).unwrap_or(0), list: None };
        (at, to) = (at + 1, to + 1);
        if node.left == LIST {
            output[to] = record[at];
            (node.left, at, to) = (record[at], at + 1, to + 1 + LENGTH);
            node.list = Some((to, 0));
        }
        open[nesting] = node;
        nesting += 1;
        while let Some(inner) = open[..nesting].last().filter(|inner| inner.left == 0) {
            if let Some((start, _)) = inner.list {
                let length = (to - start) as u16;
                output[start - LENGTH..start].copy_from_slice(&length.to_le_bytes());
            }
            nesting -= 1;
            if let Some(parent) = open[..nesting].last_mut() {
                parent.left -= 1;
            }
        }
    }
}

/// Writes the old form of an accepted stored record to as many bytes as it has.
fn write_old(table: Table, stored: &[u8], output: &mut [u8]) {
    let (mut at, mut to) = (0, 0);
    while let Some(&symbol) = stored.get(at) {
        output[to] = symbol;
        (at, to) = (at + 1, to + 1);
        if is_list(table, symbol) {
            output[to] = stored[at];
            (at, to) = (at + 1 + LENGTH, to + 1);
        }
    }
}
