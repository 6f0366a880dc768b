//! The least example: candidates by structure, in order, up to the first that is bound or spent.
//!
//! Candidates that cannot be the first to decide are passed over. A candidate comes to the same if
//! the symbols of a class are exchanged, so each class is tried by its lowest symbol; and if symbols
//! that do not stand in the pattern and have as many children are exchanged for each other, so these
//! come into a candidate from the lowest up. A search that fails before its first run name fails the
//! same way on every candidate with the bytes that it has seen.

use crate::grammar::Grammar;
use crate::pattern::{Step, Steps, NO_LIST};
use crate::record::Record;
use crate::search::{Found, Search};
use crate::{Independent, Produced};
use interface::{CHILDREN_LIMIT, EXAMPLE_LIMIT, LIST, NAMES, RUNS};
use std::ops::ControlFlow;

/// The first candidate of at most `size` bytes that the pattern, whose symbols are classes, is bound
/// or spent on.
pub(crate) fn first(
    variant: Independent,
    grammar: Grammar,
    steps: &Steps,
    size: usize,
    allowance: u32,
) -> Option<Produced> {
    let mut candidates = Candidates {
        variant,
        grammar,
        steps,
        allowance,
        symbols: symbols(grammar, steps),
        fits: fits(grammar),
        size: 0,
        bytes: Vec::new(),
        new: [0; LIST as usize + 1],
        ends: Vec::new(),
    };
    (1..=size).find_map(|size| {
        candidates.size = size;
        candidates.with(1).break_value()
    })
}

/// A symbol that candidates are made of.
#[derive(Clone, Copy)]
struct Symbol {
    code: u8,
    children: u8,
    /// How many lower symbols of its kind there are, if it does not stand in the pattern.
    place: Option<usize>,
}

/// The lowest symbol of each class, in order.
fn symbols(grammar: Grammar, steps: &Steps) -> Vec<Symbol> {
    let stands = |code: u8| {
        steps.as_slice().iter().any(|step| match *step {
            Step::Symbol { symbol, .. } | Step::List { symbol, .. } => symbol == code,
            _ => false,
        })
    };
    let (mut lower, mut symbols) = ([0; LIST as usize + 1], Vec::new());
    for code in (0..grammar.table.symbols()).map(|symbol| symbol as u8) {
        let children = grammar.table.children(code).unwrap_or(0);
        if grammar.class(code) != code {
            continue;
        }
        let place = (!stands(code)).then(|| {
            lower[usize::from(children)] += 1;
            lower[usize::from(children)] - 1
        });
        symbols.push(Symbol { code, children, place });
    }
    symbols
}

/// Whether so many terms can have just so many bytes.
type Fits = [[bool; EXAMPLE_LIMIT + 1]; EXAMPLE_LIMIT + 1];

/// Whether terms fit, as far as the table tells.
fn fits(grammar: Grammar) -> Fits {
    let has = |children| {
        (0..grammar.table.symbols())
            .any(|symbol| grammar.table.children(symbol as u8) == Some(children))
    };
    let (mut fits, mut one) = (Fits::default(), [false; EXAMPLE_LIMIT + 1]);
    fits[0][0] = true;
    for bytes in 1..=EXAMPLE_LIMIT {
        let fixed = (0..=CHILDREN_LIMIT)
            .any(|children| has(children) && row(&fits, children.into(), bytes - 1));
        let list =
            has(LIST) && bytes > 1 && (0..bytes - 1).any(|children| fits[children][bytes - 2]);
        one[bytes] = fixed || list;
        for terms in 1..=bytes {
            fits[terms][bytes] =
                (1..=bytes).any(|first| one[first] && fits[terms - 1][bytes - first]);
        }
    }
    fits
}

/// Whether so many terms, however many, can have just so many bytes.
fn row(fits: &Fits, terms: usize, bytes: usize) -> bool {
    fits.get(terms).is_some_and(|row| row[bytes])
}

struct Candidates<'a> {
    variant: Independent,
    grammar: Grammar<'a>,
    steps: &'a Steps,
    allowance: u32,
    symbols: Vec<Symbol>,
    fits: Fits,
    /// The length of the candidates.
    size: usize,
    /// The bytes of the present one, as far as they are chosen.
    bytes: Vec<u8>,
    /// How many symbols that do not stand in the pattern it has, by their number of children.
    new: [usize; LIST as usize + 1],
    ends: Vec<u16>,
}

/// How many of its first bytes make a candidate none, or that one has decided.
type Tried = ControlFlow<Produced, usize>;

impl Candidates<'_> {
    /// Tries the candidates that start with the bytes chosen, and have so many terms after them.
    fn with(&mut self, terms: usize) -> Tried {
        if terms == 0 {
            return self.tried();
        }
        let at = self.bytes.len();
        for i in 0..self.symbols.len() {
            let decisive = self.with_symbol(self.symbols[i], terms - 1)?;
            if decisive <= at {
                return ControlFlow::Continue(decisive);
            }
        }
        ControlFlow::Continue(self.size)
    }

    /// Tries those that go on with a symbol, if it may come next, and have so many terms after it and
    /// its children.
    fn with_symbol(&mut self, symbol: Symbol, later: usize) -> Tried {
        let Symbol { code, children, place } = symbol;
        let kind = usize::from(children);
        let new = self.new[kind];
        if place.is_some_and(|place| place > new) {
            return ControlFlow::Continue(self.size);
        }
        self.new[kind] += usize::from(place == Some(new));
        let (at, mut decisive) = (self.bytes.len(), self.size);
        self.bytes.push(code);
        let left = self.size - self.bytes.len();
        if children != LIST {
            if row(&self.fits, kind + later, left) {
                decisive = self.with(kind + later)?;
            }
        } else {
            for number in 0..left {
                if decisive > at + 1 && row(&self.fits, number + later, left - 1) {
                    self.bytes.push(number as u8);
                    decisive = self.with(number + later)?;
                    self.bytes.pop();
                }
            }
        }
        self.bytes.pop();
        self.new[kind] = new;
        ControlFlow::Continue(decisive)
    }

    /// Tries the candidate whose bytes are chosen, if it is an accepted record.
    fn tried(&mut self) -> Tried {
        let record = match Record::read(self.grammar, &self.bytes, &mut self.ends) {
            Ok(record) => record,
            Err(fault) => return ControlFlow::Continue(fault.at as usize + 1),
        };
        match Search::new(self.variant, self.steps, record).run(0, self.allowance) {
            (Found::None, _) => ControlFlow::Continue(seen(self.steps, record)),
            (found, count) => {
                let bytes = if found == Found::Bound { self.bytes.clone() } else { Vec::new() };
                ControlFlow::Break(Produced { found, count, bytes })
            }
        }
    }
}

/// How many bytes of a record a search has seen that fails before its first run name; all of them if
/// it does not.
fn seen(steps: &Steps, record: Record) -> usize {
    let Record { bytes, ends } = record;
    let (mut lists, mut parts) = ([0; 256], [None; NAMES + RUNS]);
    lists[usize::from(NO_LIST)] = bytes.len();
    let (mut step, mut at) = (0, 0);
    loop {
        let end = ends.get(at).map_or(at, |&end| usize::from(end));
        let is_past = |within: u8| at >= lists[usize::from(within)];
        match steps.as_slice()[step] {
            Step::Symbol { within, .. }
            | Step::List { within, .. }
            | Step::Name { within, .. }
            | Step::Complement { within, .. }
                if is_past(within) =>
            {
                return at;
            }
            Step::Symbol { symbol, .. } | Step::List { symbol, .. } if bytes[at] != symbol => {
                return at + 1;
            }
            Step::Symbol { .. } => at += 1,
            Step::List { list, .. } => {
                lists[usize::from(list)] = end;
                at += 2;
            }
            Step::Close { list } if at < lists[usize::from(list)] => return at,
            Step::Close { .. } => {}
            Step::Name { place, .. } => {
                let (start, last) = *parts[usize::from(place)].get_or_insert((at, end));
                if bytes[start..last] != bytes[at..end] {
                    return end;
                }
                at = end;
            }
            Step::Complement { skip, .. } => (step, at) = (skip.into(), end),
            Step::Run { .. } | Step::Done => return bytes.len(),
        }
        step += 1;
    }
}
