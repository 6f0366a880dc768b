//! Patterns for the plain tier, most of them plain.

use crate::case::Kind;
use crate::cases::{self, Pair};
use crate::make::Maker;
use crate::rng::Rng;
use interface::{Answer, Library, Outcome, Word, COMPLEMENT, FIRST_NAME, FIRST_RUN, LIST, RUNS};

/// A pattern and a record; the pattern is mostly plain, or nearly so.
pub fn pair(rng: &mut Rng, table: &[u8], library: &dyn Library) -> Pair {
    let (pattern, record) = match rng.chance(30) {
        true => row(rng, table),
        false => cases::pair(rng, table, library),
    };
    if rng.chance(12) {
        return (pattern, record);
    }
    let mut plain = Plain::of(table, &pattern);
    if rng.chance(8) {
        plain.spoil(rng);
    }
    (plain.codes, record)
}

/// A row of the record's own length or nearly so, and a pattern of it with a run name.
fn row(rng: &mut Rng, table: &[u8]) -> Pair {
    let most = rng.pick(&[6, 30, 255]);
    let mut maker = Maker::new(rng, table);
    let record = maker.row(most);
    (maker.pattern(&record), record)
}

/// What is special about a pattern and a record, by what the full search found.
pub fn kinds(table: &[u8], pattern: &[u8], record: &[u8], full: (Outcome, Answer)) -> Vec<Kind> {
    let (outcome, answer) = full;
    let list = |&symbol: &u8| table.get(usize::from(symbol)) == Some(&LIST);
    let many = record.first().is_some_and(list) && record.get(1).is_some_and(|&n| n >= 20);
    let empty = (0..RUNS).any(|j| answer.terms(j) == Some(0));
    let ended = matches!(outcome.word(), Some(Word::Bound | Word::None));
    let complements = pattern.contains(&COMPLEMENT);
    let has = [many, empty, ended, ended && !complements, ended && complements];
    let kinds =
        [Kind::ManyElements, Kind::EmptyRun, Kind::SameAsFull, Kind::TwiceOrTwo, Kind::Complements];
    kinds.into_iter().zip(has).filter_map(|(kind, has)| has.then_some(kind)).collect()
}

/// A pattern without complements, each name and run name another; a list's second run name is a
/// name. Bytes that are no pattern stay.
pub struct Plain<'a> {
    table: &'a [u8],
    pub codes: Vec<u8>,
    /// Where the names and run names stand.
    pub variables: Vec<usize>,
    name: u8,
    run: u8,
}

impl<'a> Plain<'a> {
    pub fn of(table: &'a [u8], pattern: &[u8]) -> Self {
        let (codes, variables) = (Vec::new(), Vec::new());
        let mut plain = Plain { table, codes, variables, name: FIRST_NAME, run: FIRST_RUN };
        let mut bytes = pattern.iter().copied();
        plain.node(&mut bytes, &mut false);
        plain.codes.extend(bytes);
        plain
    }

    /// Takes one node and its children; `run` says whether a list has its run name.
    fn node(&mut self, bytes: &mut impl Iterator<Item = u8>, run: &mut bool) {
        let Some(code) = bytes.find(|&code| code != COMPLEMENT) else { return };
        if (FIRST_NAME..COMPLEMENT).contains(&code) {
            let run = code >= FIRST_RUN && !std::mem::replace(run, true);
            return self.variable(run);
        }
        self.codes.push(code);
        let Some(mut children) = self.table.get(usize::from(code)).copied() else { return };
        if children == LIST {
            children = bytes.next().unwrap_or(0);
            self.codes.push(children);
        }
        let mut has_run = false;
        for _ in 0..children {
            self.node(bytes, &mut has_run);
        }
    }

    /// The next name or run name; the last of its kind more than once.
    fn variable(&mut self, run: bool) {
        self.variables.push(self.codes.len());
        let (next, end) = match run {
            true => (&mut self.run, COMPLEMENT),
            false => (&mut self.name, FIRST_RUN),
        };
        self.codes.push(*next);
        *next = (*next + 1).min(end - 1);
    }

    /// A name or run name is another's, or a complement stands before a node.
    fn spoil(&mut self, rng: &mut Rng) {
        if self.variables.len() < 2 || rng.chance(30) {
            return self.codes.insert(0, COMPLEMENT);
        }
        let [from, to] = [(); 2].map(|()| rng.pick(&self.variables));
        self.codes[to] = self.codes[from];
    }
}
