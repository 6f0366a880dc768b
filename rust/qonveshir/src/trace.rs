//! A search that remembers where it came furthest. It explains; words and counts are those of the
//! library.

use interface::{COMPLEMENT, FIRST_NAME, FIRST_RUN, LIST, NAMES, RUNS};
use std::ops::Range;

/// Why a pair or a level fails.
#[derive(Clone, Copy, Debug, PartialEq, Eq)]
pub enum Why {
    /// The state has another symbol.
    Symbol,
    /// The name, by its place, stands for another term already.
    Name(usize),
    /// The run name, by its place, stands for a run already that isn't here.
    Run(usize),
    /// The list has no element left for the child pattern.
    Missing,
    /// The list has elements left after its last child pattern.
    LeftOver,
    /// The inside of a complement holds.
    Complement,
}

/// Where a level failed: the pattern node, the record node, and what was assigned then.
#[derive(Clone, Debug)]
pub struct Failure {
    pub pattern: usize,
    pub record: usize,
    pub why: Why,
    pub assigned: Assigned,
}

/// How far a failure is: complements come after all pairs, in the order in which they are searched;
/// then the pattern node, then the record node decides.
type Distance = (usize, usize, usize);

/// A part of the record that a name or run name stands for, and its number of terms.
#[derive(Clone, Copy, Debug, PartialEq, Eq)]
pub struct Part {
    start: u16,
    end: u16,
    terms: u16,
}

impl Part {
    fn new(bytes: Range<usize>, terms: u16) -> Self {
        Part { start: bytes.start as u16, end: bytes.end as u16, terms }
    }

    pub fn bytes(self) -> Range<usize> {
        self.start.into()..self.end.into()
    }
}

/// What each name and run name stands for, by its place.
pub type Assigned = [Option<Part>; NAMES + RUNS];
pub const NOTHING: Assigned = [None; NAMES + RUNS];

/// The count is over the allowance.
#[derive(Debug)]
pub struct Spent;

/// The bytes of an accepted pattern or record, and where the node at each offset ends.
pub struct Tree<'a> {
    bytes: &'a [u8],
    ends: Vec<usize>,
}

impl<'a> Tree<'a> {
    pub fn new(table: &[u8], bytes: &'a [u8]) -> Self {
        let mut tree = Tree { bytes, ends: vec![0; bytes.len()] };
        tree.fill(table, 0);
        tree
    }

    /// Where the node at an offset ends, after filling in those below it.
    fn fill(&mut self, table: &[u8], at: usize) -> usize {
        let (mut end, children) = match self.bytes[at] {
            COMPLEMENT => (at + 1, 1),
            FIRST_NAME.. => (at + 1, 0),
            code => match table[usize::from(code)] {
                LIST => (at + 2, self.bytes[at + 1]),
                children => (at + 1, children),
            },
        };
        for _ in 0..children {
            end = self.fill(table, end);
        }
        self.ends[at] = end;
        end
    }

    /// The bytes of the node at an offset.
    pub fn node(&self, at: usize) -> Range<usize> {
        at..self.ends[at]
    }

    /// The places of the names and run names in a part of a pattern, each once.
    pub fn variables(&self, part: Range<usize>) -> Vec<usize> {
        let mut places = Vec::new();
        for at in part.filter(|&at| self.ends[at] > 0) {
            let place = usize::from(self.bytes[at].saturating_sub(FIRST_NAME));
            if (FIRST_NAME..COMPLEMENT).contains(&self.bytes[at]) && !places.contains(&place) {
                places.push(place);
            }
        }
        places
    }
}

/// A list of the pattern that is set against one of the record: where both end, and where they
/// start.
#[derive(Clone, Copy)]
struct Open {
    pattern_end: usize,
    record_end: usize,
    starts: (usize, usize),
}

/// A search of a record by a pattern.
pub struct Trace<'a> {
    table: &'a [u8],
    classes: &'a [u8],
    pattern: &'a Tree<'a>,
    record: &'a Tree<'a>,
    /// Pairs and lengths that may still be counted.
    left: u64,
    assigned: Assigned,
    /// The lists that are open, the innermost last.
    open: Vec<Open>,
    /// The complements put by: pattern node and record node.
    put_by: Vec<(usize, usize)>,
    /// The furthest failure, while it is looked for.
    furthest: Option<(Distance, Failure)>,
    watches: bool,
}

type Found = Result<bool, Spent>;

impl<'a> Trace<'a> {
    pub fn new(
        (table, classes): (&'a [u8], &'a [u8]),
        pattern: &'a Tree<'a>,
        record: &'a Tree<'a>,
        allowance: u32,
    ) -> Self {
        Trace {
            table,
            classes,
            pattern,
            record,
            left: allowance.into(),
            assigned: NOTHING,
            open: Vec::new(),
            put_by: Vec::new(),
            furthest: None,
            watches: true,
        }
    }

    /// The steps counted so far, of those allowed.
    pub fn counted(&self, allowance: u32) -> u64 {
        u64::from(allowance) - self.left
    }

    /// Searches a level whose root is the pattern node at an offset, from the assignments given:
    /// whether it has an answer, which is then what is assigned, or where it came furthest.
    pub fn level(
        &mut self,
        root: usize,
        record: usize,
        assigned: Assigned,
    ) -> Result<Result<Assigned, Failure>, Spent> {
        self.assigned = assigned;
        let found = self.pair(root, record, root)?;
        match (found, self.furthest.take()) {
            (false, Some((_, failure))) => Ok(Err(failure)),
            _ => Ok(Ok(self.assigned)),
        }
    }

    /// Remembers a failure of the level that is watched, if it is the furthest so far.
    fn fails(&mut self, distance: Distance, pattern: usize, record: usize, why: Why) -> Found {
        if self.watches && self.furthest.as_ref().is_none_or(|(other, _)| *other < distance) {
            let assigned = self.assigned;
            self.furthest = Some((distance, Failure { pattern, record, why, assigned }));
        }
        Ok(false)
    }

    /// A pair of the pattern node `p` and the record node `r` fails.
    fn pair_fails(&mut self, p: usize, r: usize, why: Why) -> Found {
        self.fails((0, p, r), p, r, why)
    }

    fn count(&mut self) -> Result<(), Spent> {
        self.left = self.left.checked_sub(1).ok_or(Spent)?;
        Ok(())
    }

    /// Sets a pattern node against a record node, and goes on with the level of the root.
    fn pair(&mut self, p: usize, r: usize, root: usize) -> Found {
        self.count()?;
        let code = self.pattern.bytes[p];
        match code {
            COMPLEMENT => {
                self.put_by.push((p, r));
                self.rest(self.pattern.ends[p], self.record.ends[r], root)
            }
            FIRST_NAME.. => self.name(usize::from(code - FIRST_NAME), p, r, root),
            _ if self.class(code) != self.class(self.record.bytes[r]) => {
                self.pair_fails(p, r, Why::Symbol)
            }
            _ if self.table[usize::from(code)] == LIST => {
                let (pattern_end, record_end) = (self.pattern.ends[p], self.record.ends[r]);
                self.open.push(Open { pattern_end, record_end, starts: (p, r) });
                self.rest(p + 2, r + 2, root)
            }
            _ => self.rest(p + 1, r + 1, root),
        }
    }

    /// A name takes the node, or must equal it if it is assigned.
    fn name(&mut self, place: usize, p: usize, r: usize, root: usize) -> Found {
        match self.assigned[place] {
            None => self.assigned[place] = Some(Part::new(self.record.node(r), 1)),
            Some(part) if self.same(part.bytes(), self.record.node(r)) => {}
            Some(_) => return self.pair_fails(p, r, Why::Name(place)),
        }
        self.rest(p + 1, self.record.ends[r], root)
    }

    /// Goes on with the next pattern node of the level, set against what starts at `r`.
    fn rest(&mut self, p: usize, r: usize, root: usize) -> Found {
        let Some(&list) = self.open.last() else {
            return match p < self.pattern.ends[root] {
                true => self.pair(p, r, root),
                false => self.complements(root),
            };
        };
        let (list_pattern, list_record) = list.starts;
        if p == list.pattern_end {
            if r < list.record_end {
                return self.fails((0, p, r), list_pattern, r, Why::LeftOver);
            }
            self.open.pop();
            return self.rest(p, r, root);
        }
        if self.is_child(p, list_pattern) {
            match self.pattern.bytes[p] {
                code @ FIRST_RUN..COMPLEMENT => {
                    return self.run(usize::from(code - FIRST_NAME), p, r, root)
                }
                _ if r >= list.record_end => {
                    return self.fails((0, p, r), p, list_record, Why::Missing)
                }
                _ => {}
            }
        }
        self.pair(p, r, root)
    }

    /// Whether a node is a direct child of a list node of the pattern.
    fn is_child(&self, p: usize, list: usize) -> bool {
        let mut child = list + 2;
        while child < p {
            child = self.pattern.ends[child];
        }
        child == p
    }

    /// A run name tries its lengths, or its own if it is assigned.
    fn run(&mut self, place: usize, p: usize, r: usize, root: usize) -> Found {
        let (last, list) = self.open.last().map_or((r, r), |open| (open.record_end, open.starts.1));
        if let Some(part) = self.assigned[place] {
            self.count()?;
            let next = |at: usize| (at < last).then(|| self.record.ends[at]);
            return match (0..part.terms).try_fold(r, |at, _| next(at)) {
                Some(end) if self.same(part.bytes(), r..end) => self.rest(p + 1, end, root),
                // Where no element is left, the list itself is shown.
                _ => self.fails((0, p, r), p, if r < last { r } else { list }, Why::Run(place)),
            };
        }
        let (assigned, put_by, open) = (self.assigned, self.put_by.len(), self.open.clone());
        let mut end = r;
        for terms in 0.. {
            self.count()?;
            self.assigned = assigned;
            self.assigned[place] = Some(Part::new(r..end, terms));
            self.put_by.truncate(put_by);
            self.open.clone_from(&open);
            if self.rest(p + 1, end, root)? {
                return Ok(true);
            }
            if end == last {
                break;
            }
            end = self.record.ends[end];
        }
        Ok(false)
    }

    /// A level has no pair left: its complements are searched in the order met.
    fn complements(&mut self, root: usize) -> Found {
        let within = self.pattern.node(root);
        let put_by: Vec<_> =
            self.put_by.iter().copied().filter(|(p, _)| within.contains(p)).collect();
        let (assigned, watches) = (self.assigned, self.watches);
        for (number, (p, r)) in put_by.into_iter().enumerate() {
            let before = self.put_by.len();
            self.watches = false;
            let found = self.pair(p + 1, r, p + 1)?;
            self.watches = watches;
            self.assigned = assigned;
            self.put_by.truncate(before);
            self.open.clear();
            if found {
                return self.fails((1 + number, p, r), p, r, Why::Complement);
            }
        }
        Ok(true)
    }

    fn class(&self, symbol: u8) -> u8 {
        self.classes[usize::from(symbol)]
    }

    /// Whether two parts of the record are the same up to class.
    fn same(&self, one: Range<usize>, other: Range<usize>) -> bool {
        let (mut a, mut b) = (one.start, other.start);
        while a < one.end && b < other.end {
            let (x, y) = (self.record.bytes[a], self.record.bytes[b]);
            if self.class(x) != self.class(y) {
                return false;
            }
            if self.table[usize::from(x)] == LIST {
                (a, b) = (a + 1, b + 1);
                if self.record.bytes[a] != self.record.bytes[b] {
                    return false;
                }
            }
            (a, b) = (a + 1, b + 1);
        }
        a == one.end && b == other.end
    }
}
