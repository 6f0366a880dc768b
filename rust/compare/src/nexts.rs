//! Run lengths that are given to the calls for the next answer.

use crate::case::Kind;
use crate::cases::MOST;
use crate::rng::Rng;
use interface::{Answers, Language, Library, Outcome, Word, ANSWER};

/// A pattern on a record.
pub struct Search<'a> {
    pub library: &'a dyn Library,
    pub language: Language<'a>,
    pub pattern: &'a [u8],
    pub record: &'a [u8],
}

impl Search<'_> {
    fn answers(&self) -> Answers<'_> {
        let Search { library, language, pattern, record } = *self;
        Answers::new(library, language, pattern, record, MOST)
    }

    fn next(&self, given: &[u16], allowance: u32) -> Outcome {
        let Search { library, language, pattern, record } = *self;
        library.next(language, pattern, record, given, allowance, &mut [0; ANSWER])
    }

    /// Whether there is an answer, with run names.
    pub fn has_run_lengths(&self) -> bool {
        let mut answers = self.answers();
        answers.next();
        answers.lengths().is_some_and(|lengths| !lengths.is_empty())
    }

    /// Lengths, mostly those of an answer, what the call for the next one comes to with the
    /// allowance [`MOST`], and their kind. Unknown has the count of the check.
    pub fn given(&self, rng: &mut Rng) -> (Vec<u16>, Outcome, Option<Kind>) {
        let (lengths, kind) = lengths(rng, self.answers());
        let mut found = self.next(&lengths, MOST);
        if found.word() == Some(Word::Unknown) {
            found.count = self.least(&lengths).into();
        }
        (lengths, found, kind)
    }

    /// The least allowance with which the call is not spent.
    fn least(&self, given: &[u16]) -> u32 {
        let (mut low, mut high) = (0, MOST);
        while low < high {
            let middle = (low + high) / 2;
            match self.next(given, middle).word() {
                Some(Word::Spent) => low = middle + 1,
                _ => high = middle,
            }
        }
        low
    }
}

/// The lengths of one of the answers, changed now and then, or any where there are none.
fn lengths(rng: &mut Rng, mut answers: Answers) -> (Vec<u16>, Option<Kind>) {
    let Some(Ok(_)) = answers.next() else {
        return ((0..rng.below(4)).map(|_| rng.below(4) as u16).collect(), None);
    };
    let mut lengths = answers.lengths().unwrap_or(&[]).to_vec();
    let mut kind = if lengths.is_empty() { Kind::AfterTheOnly } else { Kind::AfterTheFirst };
    for _ in 0..rng.pick(&[0, 0, 1, 2, 4, 20]) {
        let Some(Ok(_)) = answers.next() else { break };
        lengths = answers.lengths().unwrap_or(&[]).to_vec();
        kind = Kind::AfterALater;
    }
    if rng.chance(12) {
        kind = spoil(rng, &mut lengths);
    }
    (lengths, Some(kind))
}

/// Takes a length away, adds one or changes one.
fn spoil(rng: &mut Rng, lengths: &mut Vec<u16>) -> Kind {
    let at = rng.below(lengths.len().max(1));
    let change = if lengths.is_empty() { 0 } else { rng.below(4) };
    match change {
        0 => {
            lengths.insert(at, rng.below(3) as u16);
            Kind::OneLengthMore
        }
        1 => {
            lengths.remove(at);
            Kind::OneLengthLess
        }
        _ => {
            lengths[at] = lengths[at].wrapping_add(rng.pick(&[1, 1, 2, 256, u16::MAX]));
            Kind::AnotherLength
        }
    }
}
