//! Rule sheets, state sheets, their reading and writing.

use interface::{sheet_of, Edition, Language, Library, Outcome, Part, Word, ANSWER};
use notation::Symbols;
use reference::Reference;

/// open, shut, held, gate (1), row (2), gates (list).
const SIMPLE: Language =
    Language { table: &[0, 0, 0, 1, 2, 255], classes: None, edition: Edition::ONE };

fn rules(texts: &[&str]) -> Vec<u8> {
    let symbols = Symbols::parse("open shut held gate/1 row/2 gates/*").unwrap();
    let rules: Vec<_> = texts.iter().map(|text| symbols.pattern(text).unwrap()).collect();
    sheet_of(Edition::ONE, &rules)
}

fn first(rules: &[u8], record: &[u8], allowance: u32) -> (Outcome, [u16; ANSWER + 1]) {
    let mut answer = [7; ANSWER + 1];
    let outcome = Reference.match_rules(SIMPLE, rules, record, allowance, &mut answer);
    (outcome, answer)
}

#[test]
fn the_report() {
    let rules = rules(&["row(!?0, ?0)", "row(open, !shut)"]);
    let states: [(&[u8], Word, usize, u64); 3] = [
        (&[4, 0, 0], Word::Bound, 1, 8),
        (&[4, 1, 0], Word::Bound, 0, 4),
        (&[2], Word::None, 0, 2),
    ];
    for (state, word, index, count) in states {
        let (outcome, answer) = first(&rules, state, 100_000);
        assert_eq!(outcome, Outcome::counted(word, index, count));
        assert_eq!(answer[ANSWER], 7);
        assert_eq!(answer[..ANSWER] == [7; ANSWER], word == Word::None);
    }
}

#[test]
fn a_spent_rule_is_not_passed_over() {
    let rules = rules(&["open", "gates(@0, @1)", "?0"]);
    let spent = Outcome::counted(Word::Spent, 1, 4);
    assert_eq!(first(&rules, &[5, 1, 0], 3), (spent, [7; ANSWER + 1]));
}

#[test]
fn refusals_of_a_rule_sheet() {
    let good = rules(&["?0"]);
    let many = sheet_of(Edition::ONE, &vec![vec![0]; 65]);
    let broken = |mut sheet: Vec<u8>| {
        sheet[2] += 1;
        sheet
    };
    let long = [&[0; 257][..]].concat();
    let cases: [(Vec<u8>, &[u8], Word, usize); 9] = [
        (vec![], &[0], Word::Directory, 0),
        (vec![0], &[0], Word::Directory, 0),
        (vec![0, 0, 0], &[0], Word::Directory, 0),
        (vec![0; 32_769], &[0], Word::Long, 0),
        (many.clone(), &[0], Word::Long, 0),
        (broken(many), &[0], Word::Directory, 0),
        (sheet_of(Edition::ONE, &[vec![0], vec![232]]), &[0], Word::Stray, 1),
        (sheet_of(Edition::ONE, &[vec![0], long]), &[0], Word::Long, 1),
        (good, &[200], Word::Code, 0),
    ];
    for (rules, record, word, index) in cases {
        assert_eq!(first(&rules, record, 9), (Outcome::refused(word, index), [7; ANSWER + 1]));
    }
    assert_eq!(first(&[0, 0], &[0], 0).0, Outcome::counted(Word::None, 0, 0));
    assert_eq!(first(&[0, 0], &[], 0).0, Outcome::refused(Word::Short, 0));
}

#[test]
fn entries() {
    let sheet = sheet_of(Edition::ONE, &[vec![4, 0, 0], vec![9]]);
    assert_eq!(Reference.entry(&sheet, 0), Part { number: 0, offset: 10, length: 3 });
    assert_eq!(Reference.entry(&sheet, 1), Part { number: 0, offset: 13, length: 1 });
    assert_eq!(Reference.entry(&sheet, 2), Part { number: 9, offset: 0, length: 0 });
    assert_eq!(Reference.entry(&[0; 32_769], 0), Part { number: 6, offset: 0, length: 0 });
}

#[test]
fn checks_of_sheets() {
    let two = sheet_of(Edition::ONE, &[vec![4, 0, 0], vec![5, 1, 232]]);
    assert_eq!(Reference.check_rules(SIMPLE, &two), Outcome::ACCEPTED);
    assert_eq!(Reference.check_states(SIMPLE, &two), Outcome::refused(Word::Code, 1));
    let many = sheet_of(Edition::ONE, &vec![vec![0]; 65]);
    assert_eq!(Reference.check_rules(SIMPLE, &many), Outcome::refused(Word::Long, 0));
    assert_eq!(Reference.check_states(SIMPLE, &many), Outcome::ACCEPTED);
    assert_eq!(
        Reference.check_states(Language::simple(&[9]), &[]),
        Outcome::refused(Word::Table, 0)
    );
}

#[test]
fn writing() {
    let written = sheet_of(Edition::ONE, &[vec![4, 0, 0], vec![2]]);
    let mut output = [7; 20];
    let outcome = Reference.write_sheet(SIMPLE, &[4, 0, 0, 2], &[3, 1], &mut output);
    assert_eq!(outcome, Outcome::counted(Word::Bound, 0, 14));
    assert_eq!(output[..14], written);
    assert_eq!(output[14..], [7; 6]);
}

#[test]
fn refused_writings_leave_the_output() {
    let refused = |records: &[u8], lengths: &[u16], size, word, index| {
        let mut output = vec![7; size];
        let outcome = Reference.write_sheet(SIMPLE, records, lengths, &mut output);
        assert_eq!(outcome, Outcome::refused(word, index));
        assert_eq!(output, vec![7; size]);
    };
    refused(&[4, 0, 0, 2], &[4, 0], 99, Word::Directory, 0);
    refused(&[4, 0, 0, 2], &[3, 2], 99, Word::Directory, 0);
    refused(&[0, 0], &[65_535, 3], 99, Word::Directory, 0);
    refused(&[0; 32_763], &[32_763], 99, Word::Long, 0);
    refused(&[0; 65_536], &[1; 65_536], 99, Word::Long, 0);
    refused(&[0; 4_098], &[1, 4_097], 99, Word::Long, 1);
    refused(&[0, 200], &[1, 1], 99, Word::Code, 1);
    refused(&[0, 1], &[1, 1], 11, Word::Full, 0);
}

#[test]
fn a_sheet_without_entries() {
    let mut output = [7; 3];
    assert_eq!(Reference.write_sheet(Language::simple(&[]), &[], &[], &mut output).count, 2);
    assert_eq!(output, [0, 0, 7]);
}
