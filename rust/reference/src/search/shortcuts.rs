//! Lengths of a run name that cannot hold, counted without being tried.
//!
//! By document 01 a length counts one. What follows the run name in its list then decides at once
//! where it is a symbol, an assigned name or an assigned run name: set against an element that does
//! not start so, it counts one and fails, so such lengths count two each. Where nothing follows, a
//! length that leaves elements over fails uncounted, so all but the last count one each.

use super::{Search, Spent, Step};

/// What follows a run name in its list, as far as it decides which lengths can hold.
#[derive(Clone, Copy)]
pub(super) enum After {
    /// Something of which nothing is known.
    Any,
    Nothing,
    Symbol(u8),
    /// An assigned name or run name, by its place. Every element starts as an empty run does.
    Part(u8),
}

impl Search<'_> {
    /// What follows the run name of a step, by the present assignments.
    #[inline(always)]
    pub(super) fn after(&self, step: usize) -> After {
        match self.steps[step + 1] {
            Step::Close { .. } => After::Nothing,
            Step::Symbol { symbol, .. } | Step::List { symbol, .. } => After::Symbol(symbol),
            Step::Name { place, .. } | Step::Run { place, .. }
                if self.assigned >> place & 1 == 1 =>
            {
                After::Part(place)
            }
            _ => After::Any,
        }
    }

    /// Counts the lengths that cannot hold, from the one that ends at `end` with so many terms, and
    /// gives the first that can, or else the last.
    #[inline(always)]
    pub(super) fn skip(
        &mut self,
        after: After,
        end: usize,
        last: usize,
        terms: u16,
    ) -> Result<(usize, u16), Spent> {
        let bytes = self.record.bytes;
        let ((to, skipped), each) = match after {
            After::Any => return Ok((end, terms)),
            After::Nothing => (self.elements_until(end, last, |_| false), 1),
            After::Symbol(symbol) => (self.elements_until(end, last, |at| bytes[at] == symbol), 2),
            After::Part(place) => {
                let part = self.parts[usize::from(place)];
                let part = &bytes[part.start.into()..part.end.into()];
                (self.elements_until(end, last, |at| bytes[at..].starts_with(part)), 2)
            }
        };
        self.left = self.left.checked_sub(each * u32::from(skipped)).ok_or(Spent)?;
        Ok((to, terms + skipped))
    }

    /// The first element from an offset on that is as wanted, or the list's end, and the number of
    /// elements before it.
    #[inline(always)]
    fn elements_until(
        &self,
        mut at: usize,
        last: usize,
        wanted: impl Fn(usize) -> bool,
    ) -> (usize, u16) {
        let mut passed = 0;
        while at != last && !wanted(at) {
            at = self.record.ends[at].into();
            passed += 1;
        }
        (at, passed)
    }
}
