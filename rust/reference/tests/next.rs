//! Every answer, by the calls alone, against the list of all run lengths.

use interface::{Answers, Edition, Language, Library, Outcome, Word, ABSENT, ANSWER};
use reference::Reference;

/// open, shut, gate (1), row (2), gates (list), stopped; the last may be of the class of shut.
const SIMPLE: Language =
    Language { table: &[0, 0, 1, 2, 255, 0], classes: None, edition: Edition::ONE };
const CLASSES: [u8; 6] = [0, 1, 2, 3, 4, 1];

const MOST: u32 = 100_000;

fn next(language: Language, pattern: &[u8], record: &[u8], given: &[u16]) -> Outcome {
    Reference.next(language, pattern, record, given, MOST, &mut [ABSENT; ANSWER])
}

/// All lists of so many lengths from 0 to `longest`, in order.
fn lists(runs: usize, longest: u16) -> Vec<Vec<u16>> {
    match runs {
        0 => vec![vec![]],
        _ => {
            let shorter = lists(runs - 1, longest);
            let with = |n| shorter.iter().map(move |list| [vec![n], list.clone()].concat());
            (0..=longest).flat_map(with).collect()
        }
    }
}

/// gates(@0, @1), gates(@0, shut, @1), gates(@1, !shut, @0), gates(@0, @0, @1), gates(@0, @1, @2),
/// gates(@0, !gates(@0), @1), gates(@1, gates(@0), @2), gates(@0, !gate(gates(@2)), @1), !gates(@0),
/// ?0, with their numbers of free run names.
const PATTERNS: [(&[u8], usize); 10] = [
    (&[4, 2, 232, 233], 2),
    (&[4, 3, 232, 1, 233], 2),
    (&[4, 3, 233, 248, 1, 232], 2),
    (&[4, 3, 232, 232, 233], 2),
    (&[4, 3, 232, 233, 234], 3),
    (&[4, 3, 232, 248, 4, 1, 232, 233], 2),
    (&[4, 3, 233, 4, 1, 232, 234], 3),
    (&[4, 3, 232, 248, 2, 4, 1, 234, 233], 2),
    (&[248, 4, 1, 232], 0),
    (&[200], 0),
];

/// Lists of 0 to 4 elements.
const RECORDS: [&[u8]; 6] = [
    &[4, 0],
    &[4, 1, 1],
    &[4, 2, 1, 5],
    &[4, 3, 1, 1, 0],
    &[4, 3, 0, 4, 1, 0, 4, 0],
    &[4, 4, 5, 0, 1, 0],
];

/// The run lengths of every answer.
fn listed(language: Language, pattern: &[u8], record: &[u8]) -> Vec<Vec<u16>> {
    let mut answers = Answers::new(&Reference, language, pattern, record, MOST);
    let mut listed = Vec::new();
    while let Some(answer) = answers.next() {
        assert!(answer.is_ok(), "{pattern:?} on {record:?}: {answer:?}");
        listed.push(answers.lengths().unwrap().to_vec());
    }
    listed
}

#[test]
fn the_answers_are_all_lists_that_are_known() {
    let mut found = 0;
    for (pattern, runs) in PATTERNS {
        for record in RECORDS {
            for language in [SIMPLE, SIMPLE.with_classes(&CLASSES)] {
                let known = lists(runs, 5).into_iter().filter(|given| {
                    next(language, pattern, record, given).word() != Some(Word::Unknown)
                });
                let listed = listed(language, pattern, record);
                found += listed.len();
                assert_eq!(listed, known.collect::<Vec<_>>(), "{pattern:?} on {record:?}");
            }
        }
    }
    assert_eq!(found, 236);
}

#[test]
fn lengths_that_are_not_one_for_each_are_unknown_before_any_search() {
    let answer = &mut [7; ANSWER];
    for given in [&[][..], &[0], &[0, 1, 0]] {
        let outcome = Reference.next(SIMPLE, &[4, 2, 232, 233], &[4, 1, 0], given, 0, answer);
        assert_eq!(outcome, Outcome::refused(Word::Unknown, 0));
    }
    let spent = Reference.next(SIMPLE, &[4, 2, 232, 233], &[4, 1, 0], &[0, 1], 0, answer);
    assert_eq!(spent, Outcome::counted(Word::Spent, 0, 0));
    assert_eq!(*answer, [7; ANSWER]);
}
