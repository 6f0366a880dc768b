//! Counting lengths that cannot hold without trying them shows what trying them shows: at every
//! allowance, also one that ends within such lengths.

use interface::{Answers, Language, Library, Outcome, Word, ABSENT, ANSWER};
use notation::Symbols;
use reference::{Reference, Shortcuts};

/// The table of these symbols.
const TABLE: [u8; 7] = [0, 0, 0, 1, 2, 255, 0];

fn symbols() -> Symbols {
    Symbols::parse("open shut held gate/1 row/2 gates/* stopped=held").unwrap()
}

/// Patterns in which something that decides at once follows a run name, or nothing follows it.
const PATTERNS: [&str; 22] = [
    "gates(@0, shut, @1)",
    "gates(@0, shut)",
    "gates(@0, held, @1)",
    "gates(@0, gate(shut), @1)",
    "gates(@0, gates(@1, shut), @2)",
    "gates(@0, gates(), @1)",
    "gates(?0, @0, ?0, @1)",
    "gates(@0, ?0, @1, ?0, @2)",
    "!gates(@0, ?0, @1, ?0, @2)",
    "gates(@0, ?0, @1, !?0, @2)",
    "gates(@0, @1, @0, @2)",
    "gates(@0, shut, @1, @0, @2)",
    "gates(@0, @0, @1)",
    "gates(@0, shut, @0)",
    "gates(@0, !open, @1)",
    "gates(@0, !shut, @1, shut)",
    "gates(@0)",
    "gates(open, @0)",
    "gates(@0, @1, @2)",
    "gates(!open, @0, shut, @1, !gates(@2, open, @0))",
    "gates(@0, !gates(@1, shut, @2), @3)",
    "gates(gates(@0), gates(@1, @0, @2))",
];

/// Lists of few distinct elements, and lists within a list.
fn records() -> Vec<String> {
    let mut records: Vec<String> = [
        "open",
        "gates()",
        "gates(shut)",
        "gates(stopped)",
        "gates(open, shut)",
        "gates(shut, open, open, shut)",
        "gates(gate(open), gate(shut), gate(open), gate(shut))",
        "gates(gates(open), gates(), gates(open, shut), gates(held))",
        "gates(gates(open, shut), gates(held, shut, open, shut, open))",
        "gates(gates(), gates(held))",
    ]
    .map(String::from)
    .to_vec();
    for n in [2, 3, 9, 20] {
        records.push(format!("gates({})", vec!["open"; n].join(", ")));
        records.push(format!("gates({}, shut)", vec!["open"; n].join(", ")));
        records.push(format!("gates({}, shut, held, shut)", vec!["stopped"; n].join(", ")));
        records.push(format!("gates({})", vec!["row(open, shut), held"; n / 2].join(", ")));
    }
    records
}

/// What a match shows and writes.
fn matched(
    library: &dyn Library,
    language: Language,
    (pattern, record): (&[u8], &[u8]),
    allowance: u32,
) -> (Outcome, [u16; ANSWER]) {
    let mut answer = [7; ANSWER];
    let outcome = library.match_one(language, pattern, record, allowance, &mut answer);
    (outcome, answer)
}

/// What the calls for every answer show.
fn listed(
    library: &dyn Library,
    language: Language,
    (pattern, record): (&[u8], &[u8]),
    allowance: u32,
) -> Vec<Result<(interface::Answer, u64), Outcome>> {
    Answers::new(library, language, pattern, record, allowance).collect()
}

/// Runs a test on every pattern and record, without classes and up to class.
fn each(test: impl Fn(Language, (&[u8], &[u8]), &str)) {
    let symbols = symbols();
    assert_eq!(symbols.table(), TABLE);
    for pattern in PATTERNS {
        for record in records() {
            let bytes = (symbols.pattern(pattern).unwrap(), symbols.term(&record).unwrap());
            let simple = Language::simple(symbols.table());
            for language in [simple, simple.with_classes(symbols.classes())] {
                test(language, (&bytes.0, &bytes.1), &format!("{pattern} on {record}"));
            }
        }
    }
}

#[test]
fn every_allowance_up_to_the_count() {
    each(|language, pair, text| {
        let (outcome, _) = matched(&Reference, language, pair, u32::MAX);
        for allowance in (0..=outcome.count as u32 + 1).chain([u32::MAX]) {
            let expected = matched(&Reference, language, pair, allowance);
            assert_eq!(matched(&Shortcuts, language, pair, allowance), expected, "{text}");
        }
    });
}

#[test]
fn every_answer() {
    each(|language, pair, text| {
        for allowance in [u32::MAX, 0, 4, 9, 17, 40] {
            let expected = listed(&Reference, language, pair, allowance);
            assert_eq!(listed(&Shortcuts, language, pair, allowance), expected, "{text}");
        }
    });
}

#[test]
fn the_next_answer_at_every_allowance() {
    let symbols = symbols();
    let (pattern, record) = ("gates(@0, shut, @1)", "gates(shut, open, open, open, shut, open)");
    let pattern = symbols.pattern(pattern).unwrap();
    let record = symbols.term(record).unwrap();
    let next = |library: &dyn Library, given: &[u16], allowance| {
        let answer = &mut [ABSENT; ANSWER];
        let language = Language::simple(symbols.table());
        (library.next(language, &pattern, &record, given, allowance, answer), *answer)
    };
    // The check counts 4; lengths 1 to 3 count 2 each, and the answer 1 + 1 + 2.
    let (outcome, _) = next(&Shortcuts, &[0, 5], 14);
    assert_eq!(outcome, Outcome::counted(Word::Bound, 0, 14));
    for given in [&[0, 5][..], &[4, 1], &[1, 4], &[0, 4], &[0], &[9, 9]] {
        for allowance in 0..30 {
            let expected = next(&Reference, given, allowance);
            assert_eq!(next(&Shortcuts, given, allowance), expected, "{given:?}, {allowance}");
        }
    }
}

/// The count of a match and the word, as text.
fn shown(pattern: &str, record: &str, allowance: u32) -> String {
    let symbols = symbols();
    let (pattern, record) = (symbols.pattern(pattern).unwrap(), symbols.term(record).unwrap());
    let (outcome, _) =
        Shortcuts.find(Language::simple(symbols.table()), &pattern, &record, allowance);
    format!("{} {}", outcome.word().unwrap().text(), outcome.count)
}

#[test]
fn counts_by_hand() {
    let open = |n: usize, last: &str| format!("gates({}{last})", "open, ".repeat(n));
    // The list, 2 for each of 50 lengths, then a length, its pair and a last run of one length.
    assert_eq!(shown("gates(@0, shut, @1)", &open(50, "shut"), 104), "bound 104");
    for spent in [103, 102, 101, 100, 51, 50, 2, 1, 0] {
        let text = format!("spent {spent}");
        assert_eq!(shown("gates(@0, shut, @1)", &open(50, "shut"), spent), text);
    }
    // A length with no element left counts one alone.
    assert_eq!(shown("gates(@0, shut, @1)", &open(50, "open"), 104), "none 104");
    assert_eq!(shown("gates(@0, shut, @1)", &open(50, "open"), 103), "spent 103");
    // An assigned run name counts even where it doesn't fit.
    let twice = "gates(gates(@0), gates(@1, @0, @2))";
    assert_eq!(shown(twice, "gates(gates(shut), gates(open, open, held))", 100), "none 13");
    // The list, then each of 0 to 51 elements.
    assert_eq!(shown("gates(@0)", &open(50, "shut"), 53), "bound 53");
    for spent in [52, 51, 30, 1] {
        assert_eq!(shown("gates(@0)", &open(50, "shut"), spent), format!("spent {spent}"));
    }
}
