//! Every answer of a pattern on a record, by the calls alone.

use crate::*;

/// The answers of a pattern on a record in their order, each with the count of its call, which has
/// the whole allowance. A call that is spent or refused comes last, as an error.
#[derive(Clone)]
pub struct Answers<'a> {
    library: &'a dyn Library,
    language: Language<'a>,
    pattern: &'a [u8],
    record: &'a [u8],
    allowance: u32,
    after: After,
    sum: u64,
}

/// What the next call is for.
#[derive(Clone)]
enum After {
    /// The first answer.
    Nothing,
    /// The answer after the one with these run lengths.
    Lengths(Vec<u16>),
    /// Nothing more.
    Last,
}

impl<'a> Answers<'a> {
    /// The answers by a library.
    pub fn new(
        library: &'a dyn Library,
        language: Language<'a>,
        pattern: &'a [u8],
        record: &'a [u8],
        allowance: u32,
    ) -> Self {
        let after = After::Nothing;
        Answers { library, language, pattern, record, allowance, after, sum: 0 }
    }

    /// The sum of the counts of the calls so far.
    pub fn counted(&self) -> u64 {
        self.sum
    }

    /// The run lengths of the latest answer, as the next call is given them.
    pub fn lengths(&self) -> Option<&[u16]> {
        match &self.after {
            After::Lengths(lengths) => Some(lengths),
            _ => None,
        }
    }

    /// The next call, in a buffer of its own.
    fn call(&self) -> Option<(Outcome, Answer)> {
        let Answers { library, language, pattern, record, allowance, .. } = *self;
        let mut answer = Answer([ABSENT; ANSWER]);
        let room = &mut answer.0;
        let outcome = match &self.after {
            After::Nothing => library.match_one(language, pattern, record, allowance, room),
            After::Lengths(given) => {
                library.next(language, pattern, record, given, allowance, room)
            }
            After::Last => return None,
        };
        Some((outcome, answer))
    }
}

impl Iterator for Answers<'_> {
    type Item = Result<(Answer, u64), Outcome>;

    fn next(&mut self) -> Option<Self::Item> {
        let (outcome, answer) = self.call()?;
        self.sum += outcome.count;
        self.after = After::Last;
        match outcome.word() {
            Some(Word::Bound) => {
                self.after = After::Lengths(lengths(self.language.table, self.pattern, &answer));
                Some(Ok((answer, outcome.count)))
            }
            Some(Word::None) => None,
            _ => Some(Err(outcome)),
        }
    }
}

/// The run lengths of an answer, in the order in which a call takes them.
fn lengths(table: &[u8], pattern: &[u8], answer: &Answer) -> Vec<u16> {
    free_runs(table, pattern).into_iter().filter_map(|run| answer.terms(run)).collect()
}

/// The free run names of an accepted pattern, in order of their first places outside complements.
fn free_runs(table: &[u8], pattern: &[u8]) -> Vec<usize> {
    let (mut runs, mut at) = (Vec::new(), 0);
    while at < pattern.len() {
        match pattern[at] {
            COMPLEMENT => at = end(table, pattern, at),
            code => {
                let run = usize::from(code.saturating_sub(FIRST_RUN));
                if code >= FIRST_RUN && !runs.contains(&run) {
                    runs.push(run);
                }
                at += own(table, code).0;
            }
        }
    }
    runs
}

/// Where the node that starts at an offset of a pattern ends, with all below it.
fn end(table: &[u8], pattern: &[u8], mut at: usize) -> usize {
    let mut left = 1;
    while left > 0 {
        let (size, children) = own(table, pattern[at]);
        left = left - 1 + children.unwrap_or_else(|| pattern[at + 1].into());
        at += size;
    }
    at
}

/// A node's own bytes and its number of children, or none for a list, which tells its own.
fn own(table: &[u8], code: u8) -> (usize, Option<usize>) {
    match code {
        COMPLEMENT => (1, Some(1)),
        FIRST_NAME.. => (1, Some(0)),
        _ => match table[usize::from(code)] {
            LIST => (2, None),
            children => (1, Some(children.into())),
        },
    }
}
