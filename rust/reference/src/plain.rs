//! The plain tier: a pattern as a tree, matched in one descent.

use crate::{grammar::Grammar, record::Record, table::Table};
use interface::{Outcome, Word, ABSENT, ANSWER, COMPLEMENT, ENTRY, FIRST_NAME, LIST, NAMES, RUNS};

/// A node of a plain pattern. A variable is its place in the answer.
pub enum Node {
    Variable(usize),
    Symbol(u8, Vec<Node>),
}

impl Node {
    fn is_run(&self) -> bool {
        matches!(self, Node::Variable(place) if *place >= NAMES)
    }
}

/// The tree of an accepted pattern, if it is plain.
pub fn read(table: Table, pattern: &[u8]) -> Option<Node> {
    let mut seen = [false; NAMES + RUNS];
    node(table, &mut pattern.iter().copied(), &mut seen)
}

fn node(
    table: Table,
    bytes: &mut impl Iterator<Item = u8>,
    seen: &mut [bool; NAMES + RUNS],
) -> Option<Node> {
    let code = bytes.next()?;
    if code == COMPLEMENT {
        return None;
    }
    if code >= FIRST_NAME {
        let place = usize::from(code - FIRST_NAME);
        return (!std::mem::replace(&mut seen[place], true)).then_some(Node::Variable(place));
    }
    let number = match table.children(code)? {
        LIST => bytes.next()?,
        fixed => fixed,
    };
    let mut children = Vec::new();
    for _ in 0..number {
        children.push(node(table, bytes, seen)?);
    }
    let runs = children.iter().filter(|child| child.is_run()).count();
    (runs <= 1).then_some(Node::Symbol(code, children))
}

/// Matches a plain pattern against a record, and writes the answer if it is bound.
pub fn run(grammar: Grammar, rule: &Node, record: Record, answer: &mut [u16; ANSWER]) -> Outcome {
    let absent = [ABSENT, 0, 0];
    let mut tier = Tier { grammar, record, count: 0, entries: [absent; NAMES + RUNS] };
    if tier.node(rule, 0).is_none() {
        return Outcome::counted(Word::None, 0, tier.count);
    }
    answer.copy_from_slice(tier.entries.as_flattened());
    Outcome::counted(Word::Bound, 0, tier.count)
}

struct Tier<'a> {
    grammar: Grammar<'a>,
    record: Record<'a>,
    count: u64,
    entries: [[u16; ENTRY]; NAMES + RUNS],
}

impl Tier<'_> {
    /// Sets a node against the term at an offset, and gives the offset behind it.
    fn node(&mut self, node: &Node, at: usize) -> Option<usize> {
        self.count += 1;
        let end = self.end(at);
        match node {
            Node::Variable(place) => self.show(*place, at, end, 1),
            Node::Symbol(symbol, children) => {
                let found = self.record.bytes[at];
                if self.grammar.class(*symbol) != self.grammar.class(found) {
                    return None;
                }
                self.children(children, found, at)?;
            }
        }
        Some(end)
    }

    /// Sets child patterns against the children of the term at an offset.
    fn children(&mut self, children: &[Node], symbol: u8, at: usize) -> Option<()> {
        let fixed = self.grammar.table.children(symbol)?;
        let (elements, mut at) = match fixed {
            LIST => (usize::from(self.record.bytes[at + 1]), at + 2),
            _ => (usize::from(fixed), at + 1),
        };
        let runs = children.iter().filter(|child| child.is_run()).count();
        let others = children.len() - runs;
        if elements < others || runs == 0 && elements > others {
            return None;
        }
        for child in children {
            at = match child {
                Node::Variable(place) if child.is_run() => self.run(*place, elements - others, at),
                _ => self.node(child, at)?,
            };
        }
        Some(())
    }

    /// A run name takes so many terms; gives the offset behind them.
    fn run(&mut self, place: usize, terms: usize, at: usize) -> usize {
        self.count += 1;
        let end = (0..terms).fold(at, |end, _| self.end(end));
        self.show(place, at, end, terms);
        end
    }

    fn show(&mut self, place: usize, at: usize, end: usize, terms: usize) {
        self.entries[place] = [at as u16, (end - at) as u16, terms as u16];
    }

    fn end(&self, at: usize) -> usize {
        self.record.ends[at].into()
    }
}
