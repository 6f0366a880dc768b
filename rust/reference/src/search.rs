//! The search and its count.

mod shortcuts;

use crate::pattern::{Step, Steps, NO_LIST};
use crate::record::Record;
use crate::{Independent, Shortcuts};
use interface::{Word, ABSENT, ANSWER, ENTRY, NAMES, RUNS};
use shortcuts::After;

/// How a search ends.
#[derive(Clone, Copy, Debug, PartialEq, Eq)]
pub enum Found {
    Bound,
    None,
    Spent,
}

impl Found {
    /// The word that says so.
    pub fn word(self) -> Word {
        match self {
            Found::Bound => Word::Bound,
            Found::None => Word::None,
            Found::Spent => Word::Spent,
        }
    }
}

/// The count would go over the allowance.
struct Spent;

/// Where in the record the search goes on, if the pair holds.
type Next = Result<Option<usize>, Spent>;

/// A complement put by: the first step of its inside, and its record node.
#[derive(Clone, Copy)]
struct PutBy {
    step: u16,
    at: u16,
}

/// What a name or run name is assigned: start, end and number of terms.
#[derive(Clone, Copy, Default)]
struct Part {
    start: u16,
    end: u16,
    terms: u16,
}

/// A search of a record by any of several patterns. With `GIVEN` a level is that of a whole pattern,
/// which starts with the lengths of a given answer; every other tries all lengths. With `SHORT`
/// lengths that cannot hold are counted, not tried.
pub struct Search<'a> {
    steps: &'a [Step],
    record: Record<'a>,
    short: bool,
    /// Pairs and lengths that may still be counted.
    left: u32,
    /// Where each open list of the pattern ends in the record.
    lists: [u16; 256],
    /// Which names and run names are assigned, a bit for each place of the answer.
    assigned: u64,
    /// What each place is assigned.
    parts: [Part; NAMES + RUNS],
    put_by: Vec<PutBy>,
    /// Whether the lengths of a given answer are being checked.
    checks: bool,
    /// The given length of each free run name, by its place.
    given: [u16; NAMES + RUNS],
}

impl<'a> Search<'a> {
    pub fn new(variant: Independent, steps: &'a Steps, record: Record<'a>) -> Self {
        let mut lists = [0; 256];
        lists[usize::from(NO_LIST)] = u16::MAX;
        Search {
            steps: steps.as_slice(),
            record,
            short: variant == Shortcuts,
            left: 0,
            lists,
            assigned: 0,
            parts: [Part::default(); NAMES + RUNS],
            put_by: Vec::new(),
            checks: false,
            given: [0; NAMES + RUNS],
        }
    }

    /// Searches by the pattern that starts at a step, and counts; a spent search shows the
    /// allowance.
    pub fn run(&mut self, start: usize, allowance: u32) -> (Found, u64) {
        self.whole::<false>(start, allowance)
    }

    /// Searches after the answer with these lengths of the free run names, each with its place:
    /// checks them, and goes on from there as after a failure. Nothing is found and counted where
    /// they belong to no answer.
    pub fn run_after(
        &mut self,
        start: usize,
        given: impl Iterator<Item = (u8, u16)>,
        allowance: u32,
    ) -> Option<(Found, u64)> {
        given.for_each(|(place, length)| self.given[usize::from(place)] = length);
        self.checks = true;
        let (found, count) = self.whole::<true>(start, allowance);
        (!self.checks || found == Found::Spent).then_some((found, count))
    }

    fn whole<const GIVEN: bool>(&mut self, start: usize, allowance: u32) -> (Found, u64) {
        self.left = allowance;
        self.assigned = 0;
        self.put_by.clear();
        let found = match self.short {
            false => self.level::<GIVEN, false>(start, 0),
            true => self.level::<GIVEN, true>(start, 0),
        };
        let (found, left) = match found {
            Ok(true) => (Found::Bound, self.left),
            Ok(false) => (Found::None, self.left),
            Err(Spent) => (Found::Spent, 0),
        };
        (found, u64::from(allowance - left))
    }

    /// Writes the assignment found.
    pub fn answer(&self, answer: &mut [u16; ANSWER]) {
        let entries = answer.chunks_exact_mut(ENTRY);
        entries.for_each(|entry| entry.copy_from_slice(&[ABSENT, 0, 0]));
        let mut free = self.assigned;
        while free != 0 {
            let place = free.trailing_zeros() as usize;
            let Part { start, end, terms } = self.parts[place];
            answer[ENTRY * place..][..ENTRY].copy_from_slice(&[start, end - start, terms]);
            free &= free - 1;
        }
    }

    /// Searches one level to its first answer, from the present assignments.
    fn level<const GIVEN: bool, const SHORT: bool>(
        &mut self,
        step: usize,
        at: usize,
    ) -> Result<bool, Spent> {
        let first = self.put_by.len();
        let found = self.rest::<GIVEN, SHORT>(step, at, first)?;
        self.put_by.truncate(first);
        Ok(found)
    }

    /// Searches the rest of a level whose complements are put by from `first` on.
    fn rest<const GIVEN: bool, const SHORT: bool>(
        &mut self,
        mut step: usize,
        mut at: usize,
        first: usize,
    ) -> Result<bool, Spent> {
        loop {
            let next = match self.steps[step] {
                Step::Symbol { within, symbol } => self.symbol(within, symbol, at)?,
                Step::List { within, symbol, list } => self.list(within, symbol, list, at)?,
                Step::Close { list } => (at == self.list_end(list)).then_some(at),
                Step::Name { within, place } => self.name(within, place, at)?,
                Step::Run { within, place } if self.assigned >> place & 1 == 0 => {
                    return self.lengths::<GIVEN, SHORT>(within, place, step, at, first);
                }
                Step::Run { within, place } => self.assigned_run(within, place, at)?,
                Step::Complement { within, skip } => {
                    let next = self.complement(within, step, at)?;
                    step = skip.into();
                    next
                }
                Step::Done => return self.done::<GIVEN, SHORT>(first),
            };
            match next {
                Some(next) => (step, at) = (step + 1, next),
                None => return Ok(false),
            }
        }
    }

    /// Tries the lengths of an unassigned run name, each with the rest of its level.
    fn lengths<const GIVEN: bool, const SHORT: bool>(
        &mut self,
        within: u8,
        place: u8,
        step: usize,
        at: usize,
        first: usize,
    ) -> Result<bool, Spent> {
        let (assigned, put_by) = (self.assigned | 1 << place, self.put_by.len());
        let (mut terms, mut end, last) = (0, at, self.list_end(within));
        let checks = GIVEN && self.checks;
        if checks {
            terms = self.given[usize::from(place)];
            let Some(given) = self.elements_on(at, last, terms) else {
                self.count()?;
                return Ok(false);
            };
            end = given;
        }
        let after = if SHORT { self.after(step) } else { After::Any };
        loop {
            if SHORT && !(GIVEN && self.checks) {
                (end, terms) = self.skip(after, end, last, terms)?;
            }
            self.count()?;
            self.assigned = assigned;
            self.put_by.truncate(put_by);
            self.parts[usize::from(place)] = Part { start: at as u16, end: end as u16, terms };
            if self.rest::<GIVEN, SHORT>(step + 1, end, first)? {
                return Ok(true);
            }
            if end == last || checks && self.checks {
                return Ok(false);
            }
            end = self.record.ends[end].into();
            terms += 1;
        }
    }

    /// Where so many elements from an offset on end, if the list has them.
    fn elements_on(&self, mut at: usize, last: usize, elements: u16) -> Option<usize> {
        for _ in 0..elements {
            if at == last {
                return None;
            }
            at = self.record.ends[at].into();
        }
        Some(at)
    }

    /// A level has no pair left. That is the given answer if it is being checked; the search then
    /// goes on as after a failure.
    #[inline(always)]
    fn done<const GIVEN: bool, const SHORT: bool>(&mut self, first: usize) -> Result<bool, Spent> {
        let holds = self.complements_hold::<SHORT>(first)?;
        if GIVEN && holds && self.checks {
            self.checks = false;
            return Ok(false);
        }
        Ok(holds)
    }

    /// Whether no inside of the complements put by from `first` on has an answer.
    fn complements_hold<const SHORT: bool>(&mut self, first: usize) -> Result<bool, Spent> {
        let assigned = self.assigned;
        for i in first..self.put_by.len() {
            let PutBy { step, at } = self.put_by[i];
            let found = self.level::<false, SHORT>(step.into(), at.into())?;
            self.assigned = assigned;
            if found {
                return Ok(false);
            }
        }
        Ok(true)
    }

    #[inline(always)]
    fn symbol(&mut self, within: u8, symbol: u8, at: usize) -> Next {
        Ok((self.element(within, at)? && self.record.bytes[at] == symbol).then_some(at + 1))
    }

    #[inline(always)]
    fn list(&mut self, within: u8, symbol: u8, list: u8, at: usize) -> Next {
        if !self.element(within, at)? || self.record.bytes[at] != symbol {
            return Ok(None);
        }
        self.lists[usize::from(list)] = self.record.ends[at];
        Ok(Some(at + 2))
    }

    /// A name takes the node, or must equal it if it is assigned.
    #[inline(always)]
    fn name(&mut self, within: u8, place: u8, at: usize) -> Next {
        if !self.element(within, at)? {
            return Ok(None);
        }
        let end = self.record.ends[at];
        if self.assigned >> place & 1 == 0 {
            self.assigned |= 1 << place;
            self.parts[usize::from(place)] = Part { start: at as u16, end, terms: 1 };
        } else if !self.stands_at(place, at, end.into()) {
            return Ok(None);
        }
        Ok(Some(end.into()))
    }

    /// An assigned run name tries its own length.
    #[inline(always)]
    fn assigned_run(&mut self, within: u8, place: u8, at: usize) -> Next {
        self.count()?;
        let part = self.parts[usize::from(place)];
        let end = at + usize::from(part.end - part.start);
        Ok((end <= self.list_end(within) && self.stands_at(place, at, end)).then_some(end))
    }

    /// A complement is put by.
    #[inline(always)]
    fn complement(&mut self, within: u8, step: usize, at: usize) -> Next {
        if !self.element(within, at)? {
            return Ok(None);
        }
        self.put_by.push(PutBy { step: step as u16 + 1, at: at as u16 });
        Ok(Some(self.record.ends[at].into()))
    }

    /// Whether what a place is assigned also stands at another part of the record.
    #[inline(always)]
    fn stands_at(&self, place: u8, start: usize, end: usize) -> bool {
        let part = self.parts[usize::from(place)];
        self.record.bytes[start..end] == self.record.bytes[part.start.into()..part.end.into()]
    }

    #[inline(always)]
    fn list_end(&self, list: u8) -> usize {
        self.lists[usize::from(list)].into()
    }

    /// Counts a pair, unless the pattern's list has no element left there.
    #[inline(always)]
    fn element(&mut self, within: u8, at: usize) -> Result<bool, Spent> {
        if at >= self.list_end(within) {
            return Ok(false);
        }
        self.count()?;
        Ok(true)
    }

    #[inline(always)]
    fn count(&mut self) -> Result<(), Spent> {
        if self.left == 0 {
            return Err(Spent);
        }
        self.left -= 1;
        Ok(())
    }
}
