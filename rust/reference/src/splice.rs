//! The converter: an edition 1 record or pattern, spliced.

use crate::{fault::Fault, grammar::Grammar, pattern::Steps, record::Record, Refusal};
use interface::{Edition, Language, Outcome, Word, COMPLEMENT, FIRST_NAME, LIST};

/// Splices a record: numbers 1, 14, the record's, 6, 12, or written.
pub fn record(language: Language, record: &[u8], output: &mut [u8]) -> Result<Outcome, Refusal> {
    let grammar = Grammar::read(language.in_edition(Edition::ONE))?;
    Record::check(grammar, record)?;
    write(&spliced(grammar, record)?, output)
}

/// Splices a pattern: numbers 1, 14, the pattern's, 6, 12, or written.
pub fn pattern(language: Language, pattern: &[u8], output: &mut [u8]) -> Result<Outcome, Refusal> {
    let grammar = Grammar::read(language.in_edition(Edition::ONE))?;
    Steps::new().read(grammar, pattern)?;
    write(&spliced(grammar, pattern)?, output)
}

fn write(bytes: &[u8], output: &mut [u8]) -> Result<Outcome, Refusal> {
    let output = output.get_mut(..bytes.len()).ok_or(Fault::new(Word::Full, 0))?;
    output.copy_from_slice(bytes);
    Ok(Outcome::counted(Word::Bound, 0, bytes.len() as u64))
}

/// A list that stays: where it starts, where its number of children is written, and what that is.
struct List {
    start: usize,
    number: usize,
    children: usize,
}

/// A node whose children are not all met: how many are left and, of a list, its class and the list
/// that its elements come to stand in.
struct Open {
    left: u8,
    list: Option<(u8, usize)>,
}

/// The bytes of an accepted record or pattern, spliced: number 6, or written.
pub fn spliced(grammar: Grammar, bytes: &[u8]) -> Result<Vec<u8>, Fault> {
    let (mut written, mut lists) = (Vec::with_capacity(bytes.len()), Vec::<List>::new());
    let (mut open, mut at) = (Vec::<Open>::new(), 0);
    while let Some(&code) = bytes.get(at) {
        let start = at;
        at += 1;
        let (mut left, mut own) = (children(grammar, code), None);
        let outer = open.last().and_then(|outer| outer.list);
        let class = (left == LIST).then(|| grammar.class(code));
        if left == LIST {
            left = bytes[at];
            at += 1;
        }
        match (class, outer) {
            (Some(class), Some((same, list))) if class == same => own = Some((class, list)),
            _ => {
                if let Some((_, list)) = outer {
                    lists[list].children += 1;
                }
                written.push(code);
                if let Some(class) = class {
                    own = Some((class, lists.len()));
                    lists.push(List { start, number: written.len(), children: 0 });
                    written.push(0);
                }
            }
        }
        open.push(Open { left, list: own });
        close(&mut open);
    }
    for list in lists {
        let children = u8::try_from(list.children);
        written[list.number] = children.map_err(|_| Fault::new(Word::Long, list.start))?;
    }
    Ok(written)
}

/// Ends the nodes whose children are all met.
fn close(open: &mut Vec<Open>) {
    while open.last().is_some_and(|node| node.left == 0) {
        open.pop();
        if let Some(outer) = open.last_mut() {
            outer.left -= 1;
        }
    }
}

/// The number of children of an accepted code, or [`LIST`].
fn children(grammar: Grammar, code: u8) -> u8 {
    match code {
        COMPLEMENT => 1,
        FIRST_NAME.. => 0,
        _ => grammar.table.children(code).unwrap_or(0),
    }
}
