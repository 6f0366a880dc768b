//! Document 01's rides and the places where its wording needs a reading.

use interface::{Language, Library, Word, NAMES, RUNS};
use notation::Symbols;
use reference::Reference;

/// Matches texts over document 01's table and shows the outcome as text.
fn matched(pattern: &str, record: &str, allowance: u32) -> String {
    let symbols = Symbols::parse("open shut held gate/1 row/2 gates/*").unwrap();
    let pattern = symbols.pattern(pattern).unwrap();
    let record = symbols.term(record).unwrap();
    let (outcome, answer) =
        Reference.find(Language::simple(symbols.table()), &pattern, &record, allowance);
    let names = (0..NAMES).filter_map(|i| Some((format!("?{i}"), answer.name(i)?, 1)));
    let runs = (0..RUNS).filter_map(|j| Some((format!("@{j}"), answer.run(j)?, answer.terms(j)?)));
    let mut text = format!("{} {}", outcome.word().unwrap().text(), outcome.count);
    for (name, part, terms) in names.chain(runs) {
        text += &format!(" {name}={}+{}:{terms}", part.start, part.len());
    }
    text
}

fn all(cases: &[(&str, &str, &str)]) {
    for (pattern, record, expected) in cases {
        assert_eq!(&matched(pattern, record, 100_000), expected, "{pattern} on {record}");
    }
}

#[test]
fn rides() {
    all(&[
        ("row(open, !shut)", "row(open, open)", "bound 4"),
        ("!gate(?0)", "gate(open)", "none 3"),
        ("row(?0, !?0)", "row(open, shut)", "bound 4 ?0=1+1:1"),
        ("row(!?0, ?0)", "row(open, open)", "none 4"),
        ("!row(?0, !gate(?0))", "row(open, gate(shut))", "none 6"),
        ("row(!gate(?0), !!gate(?0))", "row(gate(open), gate(shut))", "none 5"),
        ("gates(@0, !open, @1)", "gates(open, shut)", "bound 10 @0=2+1:1 @1=4+0:0"),
        ("gates(@0, @1)", "gates(open)", "bound 4 @0=2+0:0 @1=2+1:1"),
        ("gates(@0, @0)", "gates(open)", "none 5"),
        ("!gates(@0, ?0, @1, !?0, @2)", "gates()", "bound 3"),
        ("gates(!open)", "gates()", "none 1"),
        ("!!?0", "open", "bound 3"),
    ]);
    assert_eq!(matched("gates(@0, @1)", "gates(open)", 3), "spent 3");
}

#[test]
fn order_of_pairs_is_that_of_the_bytes() {
    all(&[
        ("row(gate(open), shut)", "row(gate(open), open)", "none 4"),
        ("row(gate(open), shut)", "row(gate(shut), shut)", "none 3"),
    ]);
}

#[test]
fn elements_left_over_are_seen_after_the_last_child() {
    all(&[
        ("gates(gate(open))", "gates(gate(shut), open)", "none 3"),
        ("gates(gate(open))", "gates(gate(open), open)", "none 3"),
        ("gates(!open)", "gates(shut, shut)", "none 2"),
        ("gates()", "gates(open)", "none 1"),
        ("gates(gates(@0, @1))", "gates(gates(open), shut)", "none 7"),
    ]);
}

#[test]
fn an_assigned_run_name_fits_within_its_own_list() {
    let past = "row(gates(@0), row(gates(@0), open))";
    all(&[
        ("row(gates(@0), gates(@0))", "row(gates(open), gates(open))", "bound 6 @0=3+1:1"),
        ("row(gates(@0), gates(@0))", "row(gates(open), gates())", "none 6"),
        ("row(gates(@0), gates(@0))", "row(gates(open), gates(shut))", "none 6"),
        (past, "row(gates(open, open), row(gates(open), open))", "none 8"),
    ]);
}

#[test]
fn going_back_drops_later_complements() {
    all(&[
        ("gates(@0, !open, @1, shut)", "gates(open, shut, shut)", "bound 14 @0=2+1:1 @1=4+0:0"),
        ("!gates(@0, @1, @2)", "gates(open, shut)", "none 7"),
        ("row(!open, !gates(@0, @1))", "row(open, gates(open))", "none 4"),
    ]);
}

#[test]
fn spent_is_a_count_over_the_allowance() {
    assert_eq!(matched("open", "open", 0), "spent 0");
    assert_eq!(matched("open", "open", 1), "bound 1");
    assert_eq!(matched("row(open, !shut)", "row(open, open)", 3), "spent 3");
}

/// The number for a pattern and a record in bytes, over `open gate/1 gates/*`.
fn number(pattern: &[u8], record: &[u8]) -> Option<Word> {
    Reference.find(Language::simple(&[0, 1, 255]), pattern, record, 100).0.word()
}

#[test]
fn refusals_in_order() {
    let cases: &[(&[u8], &[u8], Word)] = &[
        (&[], &[], Word::Short),
        (&[1], &[0], Word::Short),
        (&[2], &[0], Word::Short),
        (&[2, 2, 0], &[0], Word::Short),
        (&[0, 0], &[0], Word::Spare),
        (&[3], &[0], Word::Code),
        (&[249], &[0], Word::Code),
        (&[232], &[0], Word::Stray),
        (&[2, 1, 248, 232], &[0], Word::Stray),
        (&[200], &[200], Word::Code),
        (&[200], &[2, 1, 232], Word::Code),
        (&[0; 257], &[0], Word::Long),
        (&[200], &[0; 4_097], Word::Long),
    ];
    for (pattern, record, word) in cases {
        assert_eq!(number(pattern, record), Some(*word), "{pattern:?} on {record:?}");
    }
}

#[test]
fn nesting() {
    let nested = |depth: usize, last: &[u8]| [&vec![1; depth][..], last].concat();
    assert_eq!(number(&nested(31, &[200]), &nested(31, &[0])), Some(Word::Bound));
    for (last, word) in [
        (&[200][..], Word::Deep),
        (&[2], Word::Deep),
        (&[232], Word::Deep),
        (&[250], Word::Code),
        (&[], Word::Short),
    ] {
        assert_eq!(number(&nested(32, last), &[0]), Some(word), "{last:?}");
    }
    assert_eq!(number(&[200], &nested(32, &[0])), Some(Word::Deep));
}

#[test]
fn complements_do_not_nest() {
    let between = |depth: usize, last: &[u8]| [&[248, 248, 1].repeat(depth)[..], last].concat();
    let record = [&vec![1; 31][..], &[0]].concat();
    assert_eq!(number(&between(31, &[248, 248, 200]), &record), Some(Word::Bound));
    assert_eq!(number(&between(31, &[248, 200]), &record), Some(Word::None));
    for last in [&[200][..], &[248, 200], &[248]] {
        assert_eq!(number(&between(32, last), &[0]), Some(Word::Deep), "{last:?}");
    }
    for (complements, word) in [(254, Word::Bound), (255, Word::None), (256, Word::Long)] {
        let pattern = [&vec![248; complements][..], &[200]].concat();
        assert_eq!(
            Reference.find(Language::simple(&[0]), &pattern, &[0], 256).0.word(),
            Some(word)
        );
    }
}

#[test]
fn limits() {
    let pattern = |names: u8| [&[2, names][..], &vec![200; names.into()]].concat();
    assert_eq!(number(&pattern(254), &[0]), Some(Word::None));
    assert_eq!(number(&pattern(255), &[0]), Some(Word::Long));
    let record = |last: u8| {
        let full = [&[2, 255][..], &[0; 255]].concat();
        [&[2, 16][..], &full.repeat(15), &[2, last], &vec![0; last.into()]].concat()
    };
    assert_eq!((record(237).len(), record(238).len()), (4_096, 4_097));
    assert_eq!(number(&[200], &record(237)), Some(Word::Bound));
    assert_eq!(number(&[200], &record(238)), Some(Word::Long));
}

#[test]
fn an_empty_table_has_no_symbol() {
    assert_eq!(Reference.find(Language::simple(&[]), &[200], &[0], 1).0.word(), Some(Word::Code));
    assert_eq!(Reference.find(Language::simple(&[9]), &[200], &[0], 1).0.word(), Some(Word::Table));
    assert_eq!(
        Reference.find(Language::simple(&[0; 201]), &[200], &[0], 1).0.word(),
        Some(Word::Table)
    );
}
