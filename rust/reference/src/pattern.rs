//! Patterns, checked and compiled to steps in one pass.

use crate::{classes::Classes, fault::Fault, grammar::Grammar};
use interface::{
    Word, COMPLEMENT, FIRST_NAME, FIRST_RUN, LIST, NAMES, NESTING_LIMIT, PATTERN_LIMIT,
};

/// A pattern's nodes in their order, with the end of each list and of each level marked.
///
/// `within` is the list whose child the node is, or [`NO_LIST`].
#[derive(Clone, Copy, Debug)]
pub enum Step {
    /// A symbol that is not a list; its children follow.
    Symbol { within: u8, symbol: u8 },
    /// A list symbol, which opens the list `list`; its children follow.
    List { within: u8, symbol: u8, list: u8 },
    /// All child patterns of a list are done.
    Close { list: u8 },
    /// A name, by its place in the answer.
    Name { within: u8, place: u8 },
    /// A run name, by its place in the answer.
    Run { within: u8, place: u8 },
    /// A complement; its inside follows, and `skip` is the last step of that.
    Complement { within: u8, skip: u16 },
    /// A level has no pair left.
    Done,
}

/// The list of a node that is no list's child. A pattern has under 255 lists.
pub const NO_LIST: u8 = 255;

/// The steps of accepted patterns, each of which ends with [`Step::Done`].
#[derive(Debug, Default)]
pub struct Steps(Vec<Step>);

impl Steps {
    pub fn new() -> Self {
        Self::default()
    }

    pub fn as_slice(&self) -> &[Step] {
        &self.0
    }

    pub fn clear(&mut self) {
        self.0.clear();
    }

    /// Reads a further pattern: numbers 6, 2, 4, 5, 7, 16, 3, or the step at which it starts.
    pub fn read(&mut self, grammar: Grammar, bytes: &[u8]) -> Result<usize, Fault> {
        if bytes.len() > PATTERN_LIMIT {
            return Err(Fault::new(Word::Long, PATTERN_LIMIT));
        }
        let start = self.0.len();
        self.0.reserve(bytes.len() + 8);
        let mut reader = Reader { grammar, bytes, steps: &mut self.0, at: 0, lists: 0 };
        reader.level(1)?;
        if reader.at < bytes.len() {
            return Err(Fault::new(Word::Spare, reader.at));
        }
        Ok(start)
    }

    /// The free run names of the pattern that starts at a step, by their places in the answer, in
    /// order of their first places outside complements.
    pub fn free_runs(&self, start: usize) -> Vec<u8> {
        let mut runs = Vec::new();
        for step in self.outside_complements(start) {
            match step {
                Step::Run { place, .. } if !runs.contains(&place) => runs.push(place),
                _ => {}
            }
        }
        runs
    }

    /// The free names and run names of the pattern that starts at a step, a bit for each place in
    /// the answer.
    pub fn free(&self, start: usize) -> u64 {
        self.outside_complements(start).fold(0, |free, step| match step {
            Step::Name { place, .. } | Step::Run { place, .. } => free | 1 << place,
            _ => free,
        })
    }

    /// The steps of the pattern that starts at a step, without the insides of complements.
    fn outside_complements(&self, mut step: usize) -> impl Iterator<Item = Step> + '_ {
        std::iter::from_fn(move || {
            let found = self.0[step];
            match found {
                Step::Done => return None,
                Step::Complement { skip, .. } => step = skip.into(),
                _ => {}
            }
            step += 1;
            Some(found)
        })
    }

    /// The number of nodes of all patterns read so far, unless one has run names.
    pub fn nodes(&self) -> Option<usize> {
        let nodes = self.0.iter().filter(|step| !matches!(step, Step::Close { .. } | Step::Done));
        let runs = self.0.iter().any(|step| matches!(step, Step::Run { .. }));
        (!runs).then(|| nodes.count())
    }

    /// Replaces each symbol by its class.
    pub fn merge(&mut self, classes: Classes) {
        for step in &mut self.0 {
            if let Step::Symbol { symbol, .. } | Step::List { symbol, .. } = step {
                *symbol = classes.of(*symbol);
            }
        }
    }
}

struct Reader<'a> {
    grammar: Grammar<'a>,
    bytes: &'a [u8],
    steps: &'a mut Vec<Step>,
    at: usize,
    lists: u8,
}

/// Where a node stands: the list whose child it is, or [`NO_LIST`], and that list's symbol.
#[derive(Clone, Copy)]
struct Place {
    within: u8,
    symbol: u8,
}

impl Place {
    const ELSEWHERE: Place = Place { within: NO_LIST, symbol: 0 };
}

impl Reader<'_> {
    fn level(&mut self, nesting: usize) -> Result<(), Fault> {
        self.node(nesting, Place::ELSEWHERE)?;
        self.steps.push(Step::Done);
        Ok(())
    }

    fn node(&mut self, nesting: usize, place: Place) -> Result<(), Fault> {
        let (start, within) = (self.at, place.within);
        let fault = |word| Err(Fault::new(word, start));
        let code = self.byte()?;
        let children = match code {
            ..FIRST_NAME => {
                self.grammar.table.children(code).ok_or(Fault::new(Word::Code, start))?
            }
            FIRST_NAME..=COMPLEMENT => 0,
            _ => return fault(Word::Code),
        };
        if nesting > NESTING_LIMIT {
            return fault(Word::Deep);
        }
        match code {
            ..FIRST_NAME if children == LIST => return self.list(code, nesting, place),
            ..FIRST_NAME => self.steps.push(Step::Symbol { within, symbol: code }),
            FIRST_NAME..FIRST_RUN => {
                self.steps.push(Step::Name { within, place: code - FIRST_NAME })
            }
            FIRST_RUN..COMPLEMENT if within == NO_LIST => return fault(Word::Stray),
            FIRST_RUN..COMPLEMENT => {
                self.steps.push(Step::Run { within, place: code - FIRST_RUN + NAMES as u8 })
            }
            _ => return self.complement(nesting, within),
        }
        for _ in 0..children {
            self.node(nesting + 1, Place::ELSEWHERE)?;
        }
        Ok(())
    }

    fn list(&mut self, symbol: u8, nesting: usize, place: Place) -> Result<(), Fault> {
        let within = place.within;
        if within != NO_LIST && self.grammar.unspliced(place.symbol, symbol) {
            return Err(Fault::new(Word::Unspliced, self.at - 1));
        }
        let children = self.byte()?;
        let list = self.lists;
        self.lists += 1;
        self.steps.push(Step::List { within, symbol, list });
        for _ in 0..children {
            self.node(nesting + 1, Place { within: list, symbol })?;
        }
        self.steps.push(Step::Close { list });
        Ok(())
    }

    /// A complement's child has the complement's own nesting.
    fn complement(&mut self, nesting: usize, within: u8) -> Result<(), Fault> {
        let place = self.steps.len();
        self.steps.push(Step::Complement { within, skip: 0 });
        self.level(nesting)?;
        let skip = self.steps.len() as u16 - 1;
        self.steps[place] = Step::Complement { within, skip };
        Ok(())
    }

    fn byte(&mut self) -> Result<u8, Fault> {
        let byte = *self.bytes.get(self.at).ok_or(Fault::new(Word::Short, self.at))?;
        self.at += 1;
        Ok(byte)
    }
}
