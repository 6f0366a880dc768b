//! Matches up to class, and the class lists that are turned away.

use interface::{sheet_of, Edition, Language, Library, Outcome, Word, ANSWER};
use notation::Symbols;
use reference::Reference;

const SYMBOLS: &str = "open shut held gate/1 row/2 gates/* stopped=held door=gate rows=gates";

/// Matches texts with and without the class list and shows word and count of both.
fn matched(pattern: &str, record: &str) -> String {
    let symbols = Symbols::parse(SYMBOLS).unwrap();
    let simple = Language::simple(symbols.table());
    let (pattern, record) = (symbols.pattern(pattern).unwrap(), symbols.term(record).unwrap());
    let text = |outcome: Outcome| {
        let (word, count) = (outcome.word().unwrap().text(), outcome.count);
        format!("{word} {count}")
    };
    let find = |language: Language| Reference.find(language, &pattern, &record, 1_000);
    let plain = find(simple);
    assert_eq!(find(simple.with_classes(simple.class_list())), plain);
    let (outcome, answer) = find(simple.with_classes(symbols.classes()));
    let part = answer.name(0).or(answer.run(0));
    let shown = part.map(|part| format!(" {}", symbols.show_run(&record[part]).unwrap()));
    format!("{}{}; {}", text(outcome), shown.unwrap_or_default(), text(plain.0))
}

#[test]
fn symbols_and_parts_are_compared_up_to_class() {
    for (pattern, record, expected) in [
        ("held", "stopped", "bound 1; none 1"),
        ("!held", "stopped", "none 2; bound 2"),
        ("gate(stopped)", "door(held)", "bound 2; none 1"),
        ("rows()", "gates()", "bound 1; none 1"),
        ("row(?0, ?0)", "row(stopped, held)", "bound 3 stopped; none 3"),
        ("row(?0, ?0)", "row(stopped, shut)", "none 3; none 3"),
        ("row(!?0, ?0)", "row(door(held), gate(stopped))", "none 4; bound 4"),
        ("row(?0, !?0)", "row(rows(held), gates(stopped))", "none 4; bound 4"),
        ("gates(@0, @0)", "gates(held, stopped)", "bound 5 held; none 7"),
        ("row(gates(@0), gates(@0))", "row(gates(held), rows(stopped))", "bound 6 held; none 5"),
        ("gates(@0, ?0, @1, ?0)", "rows(held, open, stopped)", "bound 7 held; none 1"),
    ] {
        assert_eq!(matched(pattern, record), expected, "{pattern} on {record}");
    }
}

#[test]
fn the_number_of_children_is_no_symbol() {
    let symbols = Symbols::parse("open shut=open held=open row/2 gates/*").unwrap();
    let pattern = symbols.pattern("row(?0, ?0)").unwrap();
    let matched = |record: &str| {
        let record = symbols.term(record).unwrap();
        let language = Language::simple(symbols.table()).with_classes(symbols.classes());
        Reference.find(language, &pattern, &record, 9).0
    };
    let equal = Outcome::counted(Word::Bound, 0, 3);
    let unlike = Outcome::counted(Word::None, 0, 3);
    assert_eq!(matched("row(gates(gates(), held), gates(gates(), open))"), equal);
    assert_eq!(matched("row(gates(gates(open)), gates(gates(), open))"), unlike);
    assert_eq!(matched("row(gates(gates(open), open), gates(gates(open, open)))"), unlike);
}

#[test]
fn class_lists_are_checked_after_the_table() {
    let (table, pattern, record) = ([0, 0, 0, 1, 255, 0], [200], [0]);
    let call = |table: &[u8], classes: &[u8], pattern: &[u8], width: usize| {
        let language = Language::simple(table).with_classes(classes);
        let mut answer = [7; ANSWER + 1];
        let lent = &mut answer[..width];
        let outcome = Reference.match_one(language, pattern, &record, 9, lent);
        let rules = sheet_of(Edition::ONE, &[pattern.to_vec()]);
        let mut other = [7; ANSWER + 1];
        let lent = &mut other[..width];
        let tried = Reference.match_rules(language, &rules, &record, 9, lent);
        assert_eq!((outcome, answer), (tried, other));
        assert_eq!(answer == [7; ANSWER + 1], outcome.number != 0);
        assert!(outcome.number == 0 || (outcome.index, outcome.count) == (0, 0));
        outcome.word().unwrap()
    };
    let refused: [&[u8]; 7] = [
        &[],
        &[0, 1, 2, 3, 4],
        &[0, 1, 2, 3, 4, 5, 6],
        &[0, 2, 2, 3, 4, 5],
        &[0, 1, 1, 3, 4, 2],
        &[0, 1, 2, 2, 4, 5],
        &[0, 1, 2, 3, 4, 200],
    ];
    for classes in refused {
        assert_eq!(call(&table, classes, &pattern, ANSWER), Word::Class, "{classes:?}");
        assert_eq!(call(&table, classes, &[], ANSWER), Word::Class);
        assert_eq!(call(&[9], classes, &pattern, ANSWER), Word::Table);
        assert_eq!(call(&[9], classes, &pattern, ANSWER - 1), Word::Narrow);
    }
    let accepted = [0, 0, 0, 3, 4, 0];
    assert_eq!(call(&table, &accepted, &pattern, ANSWER), Word::Bound);
    assert_eq!(call(&table, &accepted, &[3], ANSWER), Word::Short);
    assert_eq!(call(&[], &[], &pattern, ANSWER), Word::Code);
}

#[test]
fn rules_are_tried_up_to_class() {
    let symbols = Symbols::parse(SYMBOLS).unwrap();
    let rules = ["row(!?0, ?0)", "row(held, !shut)"].map(|rule| symbols.pattern(rule).unwrap());
    let (rules, record) =
        (sheet_of(Edition::ONE, &rules), symbols.term("row(stopped, held)").unwrap());
    let answer = &mut [7; ANSWER];
    let simple = Language::simple(symbols.table());
    let classes = simple.with_classes(symbols.classes());
    let outcome = Reference.match_rules(classes, &rules, &record, 9, answer);
    assert_eq!(outcome, Outcome::counted(Word::Bound, 1, 8));
    let outcome = Reference.match_rules(simple, &rules, &record, 9, answer);
    assert_eq!(outcome, Outcome::counted(Word::Bound, 0, 4));
}
