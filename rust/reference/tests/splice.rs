//! The converter: records and patterns spliced, and what it turns away.

use interface::{Edition, Language, Library, Outcome, Word, LIST};
use notation::Symbols;
use reference::Reference;

const SYMBOLS: &str = "open shut held gate/1 row/2 gates/* bays/* rows=gates";

/// A pattern spliced without classes and up to class, each of which splicing again leaves.
fn spliced(text: &str) -> [String; 2] {
    let symbols = Symbols::parse(SYMBOLS).unwrap();
    let simple = Language::simple(symbols.table());
    [simple, simple.with_classes(symbols.classes())].map(|language| {
        let bytes = splice(language, &symbols.pattern(text).unwrap());
        assert_eq!(splice(language, &bytes), bytes, "{text} twice");
        let read = Reference.cost(language.in_edition(Edition::TWO), &bytes);
        assert!([Some(Word::Bound), Some(Word::None)].contains(&read.word()), "{text}: {read:?}");
        symbols.show_pattern(&bytes).unwrap()
    })
}

/// What a pattern is spliced to, which a record is too.
fn splice(language: Language, pattern: &[u8]) -> Vec<u8> {
    let mut output = vec![7; pattern.len()];
    let outcome = Reference.splice_pattern(language, pattern, &mut output);
    assert_eq!((outcome.number, outcome.index), (0, 0));
    output.truncate(outcome.count as usize);
    let mut other = vec![7; pattern.len()];
    let record = Reference.splice_record(language, pattern, &mut other);
    if record.word() != Some(Word::Code) {
        assert_eq!((record, &other[..output.len()]), (outcome, &output[..]));
    }
    output
}

#[test]
fn elements_stand_in_place_of_their_list() {
    for (text, simple, up_to_class) in [
        ("open", "open", "open"),
        ("gates()", "gates()", "gates()"),
        ("gates(gates())", "gates()", "gates()"),
        ("gates(open, gates(shut, held), open)", "gates(open, shut, held, open)", ""),
        ("gates(gates(gates(open), gates(), shut), held)", "gates(open, shut, held)", ""),
        ("rows(gates(open), rows(shut))", "rows(gates(open), shut)", "rows(open, shut)"),
        ("gates(rows(gates(open)))", "gates(rows(gates(open)))", "gates(open)"),
        ("gates(bays(gates(open), bays(shut)))", "gates(bays(gates(open), shut))", ""),
        ("gates(gate(gates(gates(open))), open)", "gates(gate(gates(open)), open)", ""),
        ("row(gates(gates()), bays(bays(open)))", "row(gates(), bays(open))", ""),
        ("gates(@0, gates(@1, ?0), !gates(gates(@2)))", "gates(@0, @1, ?0, !gates(@2))", ""),
        ("!gates(!!gates(open), gates(!gates()))", "!gates(!!gates(open), !gates())", ""),
    ] {
        let up_to_class = if up_to_class.is_empty() { simple } else { up_to_class };
        assert_eq!(spliced(text), [simple, up_to_class], "{text}");
    }
}

/// open, gates (list), and a list of the same class.
const TABLE: [u8; 3] = [0, LIST, LIST];

/// Lists of these lengths within a list.
fn lists(lengths: &[u8]) -> Vec<u8> {
    let rows = lengths.iter().map(|&n| [vec![1, n], vec![0; n.into()]].concat());
    [vec![1, lengths.len() as u8], rows.collect::<Vec<_>>().concat()].concat()
}

#[test]
fn a_spliced_list_has_at_most_255_elements() {
    let record = |record: &[u8], room: usize| {
        let mut output = vec![7; room];
        let outcome = Reference.splice_record(Language::simple(&TABLE), record, &mut output);
        let untouched = output.iter().all(|&byte| byte == 7);
        assert_eq!(untouched, outcome.number != 0, "{outcome:?}");
        outcome
    };
    let most = Outcome::counted(Word::Bound, 0, 257);
    assert_eq!(record(&lists(&[200, 0, 55]), 257), most);
    assert_eq!(record(&lists(&[200, 0, 55]), 256), Outcome::refused(Word::Full, 0));
    // 6 before 12, after 3.
    assert_eq!(record(&lists(&[200, 56]), 0), Outcome::refused(Word::Long, 0));
    assert_eq!(record(&lists(&[255; 15]), 4_096), Outcome::refused(Word::Long, 0));
    let spare = [lists(&[200, 56]), vec![0]].concat();
    assert_eq!(record(&spare, 999), Outcome::refused(Word::Spare, 0));
    // Within a list of another symbol, which has few elements itself.
    let within = [vec![2, 1], lists(&[200, 56])].concat();
    assert_eq!(record(&within, 999), Outcome::refused(Word::Long, 0));
}

#[test]
fn refusals_in_their_order() {
    let call = |language: Language, bytes: &[u8], room: usize| {
        let mut output = vec![7; room];
        let pattern = Reference.splice_pattern(language, bytes, &mut output);
        let record = Reference.splice_record(language, bytes, &mut output);
        assert!(output.iter().all(|&byte| byte == 7));
        [pattern, record].map(|outcome| {
            assert_eq!((outcome.index, outcome.count), (0, 0));
            outcome.word().unwrap()
        })
    };
    let simple = Language::simple(&TABLE);
    let brought = simple.with_classes(&[0, 1, 1]);
    assert_eq!(call(Language::simple(&[9]).with_classes(&[]), &[], 0), [Word::Table; 2]);
    assert_eq!(call(simple.with_classes(&[0, 1]), &[], 0), [Word::Class; 2]);
    assert_eq!(call(brought, &[], 0), [Word::Short; 2]);
    assert_eq!(call(brought, &[1, 1, 232], 1), [Word::Full, Word::Code]);
    assert_eq!(call(brought, &[232], 9), [Word::Stray, Word::Code]);
    assert_eq!(call(brought, &[1, 1, 2, 0, 0], 9), [Word::Spare; 2]);
    assert_eq!(call(brought, &[1, 1, 2, 0], 1), [Word::Full; 2]);
    assert_eq!(call(simple, &[1, 1, 2, 0], 3), [Word::Full; 2]);
    assert_eq!(call(simple, &[0; 257], 999), [Word::Long, Word::Spare]);
    // The edition of the language is not asked: what is read is edition 1.
    assert_eq!(call(simple.in_edition(Edition(0)), &[1, 1, 1], 0), [Word::Short; 2]);
}
