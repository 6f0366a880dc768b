//! What a rule can cost at most.

use interface::{Language, Library, Outcome, Word, AMPLE, PATTERN_LIMIT};
use reference::Reference;

/// open, shut, gate (1), row (2), gates (list).
const TABLE: [u8; 5] = [0, 0, 1, 2, 255];

fn cost(pattern: &[u8]) -> Outcome {
    Reference.cost(Language::simple(&TABLE), pattern)
}

fn at_most(nodes: u64) -> Outcome {
    Outcome::counted(Word::Bound, 0, nodes)
}

#[test]
fn nodes_of_patterns_without_run_names() {
    // ?0, open, row(open, !shut), row(!gate(?0), !!gate(?0)), gates(), gates(gates(), ?0)
    let patterns: [(&[u8], u64); 6] = [
        (&[200], 1),
        (&[0], 1),
        (&[3, 0, 248, 1], 4),
        (&[3, 248, 2, 200, 248, 248, 2, 200], 8),
        (&[4, 0], 1),
        (&[4, 2, 4, 0, 200], 3),
    ];
    for (pattern, nodes) in patterns {
        assert_eq!(cost(pattern), at_most(nodes), "{pattern:?}");
    }
}

#[test]
fn the_largest_bound_is_ample_and_is_counted() {
    let pattern = [vec![248; PATTERN_LIMIT - 1], vec![200]].concat();
    assert_eq!(cost(&pattern), at_most(AMPLE.into()));
    let (none, _) = Reference.find(Language::simple(&TABLE), &pattern, &[0], AMPLE);
    assert_eq!(none, Outcome::counted(Word::None, 0, AMPLE.into()));
    let (spent, _) = Reference.find(Language::simple(&TABLE), &pattern, &[0], AMPLE - 1);
    assert_eq!(spent.word(), Some(Word::Spent));
}

#[test]
fn run_names_have_no_such_bound() {
    // gates(@0), !gates(@0), row(open, !row(!gates(open, @0), ?0))
    let patterns: [&[u8]; 3] =
        [&[4, 1, 232], &[248, 4, 1, 232], &[3, 0, 248, 3, 248, 4, 2, 0, 232, 200]];
    for pattern in patterns {
        assert_eq!(cost(pattern), Outcome::counted(Word::None, 0, 0), "{pattern:?}");
    }
    // gates(@0, @0) counts more than its three nodes
    let (found, _) = Reference.find(Language::simple(&TABLE), &[4, 2, 232, 232], &[4, 1, 0], 100);
    assert_eq!(found, Outcome::counted(Word::None, 0, 5));
}

#[test]
fn refusals_in_their_order() {
    assert_eq!(Reference.cost(Language::simple(&[9]), &[]), Outcome::refused(Word::Table, 0));
    let faults: [(&[u8], Word); 6] = [
        (&[], Word::Short),
        (&[0, 0], Word::Spare),
        (&[5], Word::Code),
        (&[249], Word::Code),
        (&[232], Word::Stray),
        (&[0; PATTERN_LIMIT + 1], Word::Long),
    ];
    for (pattern, word) in faults {
        assert_eq!(cost(pattern), Outcome::refused(word, 0), "{pattern:?}");
    }
    let nested = |gates| [vec![2; gates], vec![0]].concat();
    assert_eq!(cost(&nested(31)), at_most(32));
    assert_eq!(cost(&nested(32)), Outcome::refused(Word::Deep, 0));
}
