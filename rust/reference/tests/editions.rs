//! Edition 2: what comes unspliced, and the edition that a call or its sheet tells.

use interface::{edition_of, sheet_of, Edition, Language, Library, Outcome, Word, ANSWER};
use notation::Symbols;
use reference::{Independent, Reference};
use Word::{Bound, Directory, Unspliced};

const SYMBOLS: &str = "open shut held gate/1 row/2 gates/* bays/* rows=gates";

/// The bytes of a state or a rule.
fn bytes(text: &str) -> Vec<u8> {
    Symbols::parse(SYMBOLS).unwrap().pattern(text).unwrap()
}

/// What a call comes to in edition 2, in edition 2 up to class, and in edition 1.
fn words(call: impl Fn(Language) -> Outcome) -> [Word; 3] {
    let symbols = Symbols::parse(SYMBOLS).unwrap();
    let one = Language::simple(symbols.table());
    let two = one.in_edition(Edition::TWO);
    assert_eq!(call(two.with_classes(two.class_list())), call(two));
    [two, two.with_classes(symbols.classes()), one].map(|language| call(language).word().unwrap())
}

fn of_record(record: &[u8]) -> [Word; 3] {
    words(|language| Reference.find(language, &[200], record, 9).0)
}

fn of_pattern(pattern: &[u8]) -> [Word; 3] {
    words(|language| Reference.cost(language, pattern))
}

#[test]
fn a_list_directly_inside_a_list_of_its_class_is_unspliced() {
    for (text, expected) in [
        ("gates(open, gates())", [Unspliced, Unspliced, Bound]),
        ("gates(open, rows())", [Bound, Unspliced, Bound]),
        ("rows(gates(shut))", [Bound, Unspliced, Bound]),
        ("gates(bays(gates()))", [Bound; 3]),
        ("gates(gate(gates(open)))", [Bound; 3]),
        ("row(gates(), gates())", [Bound; 3]),
        ("gates(bays(bays()))", [Unspliced, Unspliced, Bound]),
    ] {
        assert_eq!(of_record(&bytes(text)), expected, "{text}");
        assert_eq!(of_pattern(&bytes(text)), expected, "{text}");
    }
    for (text, expected) in [
        ("gates(!gates(open))", [Bound; 3]),
        ("gates(!gates(gates()))", [Unspliced, Unspliced, Bound]),
        ("gates(!!rows(), rows())", [Bound, Unspliced, Bound]),
    ] {
        assert_eq!(of_pattern(&bytes(text)), expected, "{text}");
    }
}

#[test]
fn unspliced_stands_between_deep_or_stray_and_the_late_short() {
    // Lists of two symbols in turn, the last of which stands in a list of its own symbol.
    let nested = |lists: u8| -> Vec<u8> {
        let lists = (0..lists).flat_map(|level| [5 + level % 2, 1]).collect::<Vec<_>>();
        let last = lists[lists.len() - 2];
        [lists, vec![last]].concat()
    };
    assert_eq!(of_record(&nested(31)), [Unspliced, Unspliced, Word::Short]);
    assert_eq!(of_record(&nested(32)), [Word::Deep; 3]);
    assert_eq!(of_pattern(&nested(31)), [Unspliced, Unspliced, Word::Short]);
    assert_eq!(of_pattern(&nested(32)), [Word::Deep; 3]);
    // A stray run name and a bad code before the list, and after it.
    assert_eq!(of_pattern(&[5, 2, 3, 232, 5]), [Word::Stray; 3]);
    assert_eq!(of_pattern(&[5, 2, 5, 1, 249]), [Unspliced, Unspliced, Word::Code]);
    assert_eq!(of_record(&[5, 2, 9, 5]), [Word::Code; 3]);
    assert_eq!(of_record(&[5, 1, 5, 0, 0]), [Unspliced, Unspliced, Word::Spare]);
    // The old and the stored form: 16 comes before the number, the length and what it tells.
    for stored in [&[5, 1, 4, 0, 5][..], &[5, 1, 4, 0, 5, 0], &[5, 1, 9, 0, 5, 0, 0, 0]] {
        let short = if stored.len() < 8 { Word::Short } else { Word::Length };
        let found = words(|language| Reference.restore(language, stored, &mut [7; 9]));
        assert_eq!(found, [Unspliced, Unspliced, short], "{stored:?}");
    }
    let other = &[5, 1, 4, 0, 7, 0, 0, 0];
    let found = words(|language| Reference.restore(language, other, &mut [7; 4]));
    assert_eq!(found, [Bound, Unspliced, Bound]);
    let found = words(|language| Reference.store(language, &[5, 1, 7, 0], &mut [7; 8]));
    assert_eq!(found, [Bound, Unspliced, Bound]);
}

#[test]
fn another_edition_is_refused_before_all_else() {
    let calls: [fn(Language) -> Outcome; 7] = [
        |language| Reference.match_one(language, &[], &[], 0, &mut []),
        |language| Reference.next(language, &[], &[], &[], 0, &mut []),
        |language| Reference.match_plain(language, &[], &[], &mut []),
        |language| Reference.cost(language, &[]),
        |language| Reference.write_sheet(language, &[], &[0], &mut []),
        |language| Reference.store(language, &[], &mut []),
        |language| Reference.restore(language, &[], &mut []),
    ];
    for edition in [0, 3, 257, 1 << 16, u32::MAX] {
        let other = Language::simple(&[9]).in_edition(Edition(edition));
        for (i, call) in calls.iter().enumerate() {
            for language in [other, other.with_classes(&[1, 1])] {
                let refused = Outcome::refused(Directory, 0);
                assert_eq!(call(language), refused, "call {i}, edition {edition}");
            }
        }
    }
}

#[test]
fn a_sheet_tells_its_edition() {
    let entries = [bytes("gates(open)"), bytes("gates(shut, rows())")];
    let [one, two] = [Edition::ONE, Edition::TWO].map(|edition| sheet_of(edition, &entries));
    assert_eq!((edition_of(&one), edition_of(&two)), (Edition::ONE, Edition::TWO));
    assert_eq!((one[..2].to_vec(), two[..2].to_vec()), (vec![2, 0], vec![2, 128]));
    assert_eq!(one[2..], two[2..]);
    assert_eq!(Reference.entry(&two, 1), Reference.entry(&one, 1));
    // The edition of the language is not asked.
    let unspliced = [Bound, Unspliced, Bound];
    for check in [Independent::check_rules, Independent::check_states] {
        assert_eq!(words(|language| check(&Reference, language, &one)), [Bound; 3]);
        assert_eq!(words(|language| check(&Reference, language, &two)), unspliced);
    }
    let tried = |rules: &[u8], record: &str| {
        let record = bytes(record);
        words(|l| Reference.match_rules(l, rules, &record, 99, &mut [0; ANSWER]))
    };
    let rules = |edition| sheet_of(edition, &[bytes("gates(open)"), bytes("?0")]);
    assert_eq!(tried(&rules(Edition::ONE), "gates(gates())"), [Bound; 3]);
    assert_eq!(tried(&rules(Edition::TWO), "gates(gates())"), [Unspliced; 3]);
    assert_eq!(tried(&rules(Edition::TWO), "gates(rows())"), unspliced);
    assert_eq!(tried(&two, "gates(open)"), unspliced);
    assert_eq!(tried(&[0, 128], "gates(gates())"), [Unspliced; 3]);
    assert_eq!(tried(&[0, 128, 0], "open"), [Directory; 3]);
}

#[test]
fn the_writer_is_told_the_edition() {
    let symbols = Symbols::parse(SYMBOLS).unwrap();
    let one = Language::simple(symbols.table());
    let two = one.in_edition(Edition::TWO);
    let write = |language, record: &str| {
        let (record, mut output) = (bytes(record), [7; 20]);
        let lengths = [1, record.len() as u16];
        let joined = [&[0], &record[..]].concat();
        let outcome = Reference.write_sheet(language, &joined, &lengths, &mut output);
        (outcome, output)
    };
    for (language, edition) in [(one, Edition::ONE), (two, Edition::TWO)] {
        let (outcome, output) = write(language, "gates(rows())");
        let sheet = sheet_of(edition, &[vec![0], bytes("gates(rows())")]);
        assert_eq!(outcome, Outcome::counted(Bound, 0, sheet.len() as u64));
        assert_eq!(output[..sheet.len()], sheet);
        assert!(output[sheet.len()..].iter().all(|&byte| byte == 7));
    }
    let refused = (Outcome::refused(Unspliced, 1), [7; 20]);
    assert_eq!(write(two, "gates(gates())"), refused);
    assert_eq!(write(two.with_classes(symbols.classes()), "gates(rows())"), refused);
}
