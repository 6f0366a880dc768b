//! A game of two: what each brings, and what the loader begins with.

use crate::{Outcome, Word, RULES_LIMIT};

/// Most turns of a game, passes counted.
pub const TURNS_LIMIT: u32 = 6;
/// Index of a forced outcome for which no move is needed: the start satisfies the goal.
pub const NO_MOVE: u32 = 64;
/// Index of a forced outcome for which the loader, who has no move, passes first.
pub const PASS: u32 = 65;

/// The moves of a loader or a sender: a sheet of rules, and one with a template for each.
#[derive(Clone, Copy, Debug, PartialEq, Eq)]
pub struct Side<'a> {
    pub rules: &'a [u8],
    pub templates: &'a [u8],
}

/// What a loader who forces the goal begins with.
#[derive(Clone, Copy, Debug, PartialEq, Eq)]
pub enum Opening {
    /// The start satisfies the goal.
    NoMove,
    /// The lowest of the loader's rules that still forces it.
    Rule(usize),
    /// The loader has no move.
    Pass,
}

impl Outcome {
    /// What the loader begins with, if the outcome of a game is forced.
    pub fn opening(&self) -> Option<Opening> {
        match (self.word(), self.index) {
            (Some(Word::Bound), NO_MOVE) => Some(Opening::NoMove),
            (Some(Word::Bound), PASS) => Some(Opening::Pass),
            (Some(Word::Bound), rule) if rule < RULES_LIMIT as u32 => {
                Some(Opening::Rule(rule as usize))
            }
            _ => None,
        }
    }
}

impl Opening {
    /// The index that shows it.
    pub fn index(self) -> usize {
        match self {
            Opening::NoMove => NO_MOVE as usize,
            Opening::Rule(rule) => rule,
            Opening::Pass => PASS as usize,
        }
    }
}

#[cfg(test)]
mod tests {
    use super::*;

    #[test]
    fn an_opening_is_read_off_its_index() {
        for opening in [Opening::NoMove, Opening::Rule(0), Opening::Rule(63), Opening::Pass] {
            let forced = Outcome::counted(Word::Bound, opening.index(), 0);
            assert_eq!(forced.opening(), Some(opening));
        }
        for outcome in [
            Outcome::counted(Word::Bound, PASS as usize + 1, 0),
            Outcome::counted(Word::None, 0, 0),
            Outcome::counted(Word::Spent, 0, 9),
            Outcome::refused(Word::Turns, 0),
        ] {
            assert_eq!(outcome.opening(), None);
        }
    }
}
