//! The least example: what it is, refusals in their order, and every candidate tried one by one.

use interface::{Edition, Language, Library, Word, Written, LIST};
use notation::Symbols;
use reference::{Reference, Shortcuts};

const SYMBOLS: &str = "open shut held gate/1 row/2 gates/* stopped=held doors=gates";

/// Word, count and record of a rule's example.
fn text(language: Language, rule: &str, size: u32, allowance: u32) -> String {
    let symbols = Symbols::parse(SYMBOLS).unwrap();
    let (written, record) =
        Reference.least(language, &symbols.pattern(rule).unwrap(), size, allowance);
    assert_eq!(written.length as usize, record.len());
    let word = format!("{} {}", written.word().unwrap().text(), written.count);
    match record.is_empty() {
        true => word,
        false => word + " " + &symbols.show_term(&record).unwrap(),
    }
}

#[test]
fn the_fewest_bytes_and_the_first_by_bytes() {
    let symbols = Symbols::parse(SYMBOLS).unwrap();
    let simple = Language::simple(symbols.table());
    for (rule, size, expected) in [
        ("?0", 6, "bound 1 open"),
        ("?0", 1, "bound 1 open"),
        ("?0", 0, "no example 0"),
        ("!open", 6, "bound 2 shut"),
        ("held", 6, "bound 1 held"),
        ("row(?0, !?0)", 6, "bound 4 row(open, shut)"),
        ("row(?0, !?0)", 2, "no example 0"),
        ("gates(@0)", 6, "bound 2 gates()"),
        ("gates(@0, held, @1)", 6, "bound 4 gates(held)"),
        ("gates(@0, !?0, @1, ?0, @2)", 6, "bound 7 gates(open, shut)"),
        ("gates(?0, ?1, ?2, ?3)", 6, "bound 5 gates(open, open, open, open)"),
        ("gates(?0, ?1, ?2, ?3)", 5, "no example 0"),
        ("gates(?0, ?1, ?2, ?3, ?4)", 6, "no example 0"),
        ("row(!?0, ?0)", 6, "bound 4 row(open, shut)"),
        ("!?0", 6, "no example 0"),
        // A class's lowest symbol counts as any other without a class list.
        ("row(!held, !open)", 6, "bound 5 row(open, shut)"),
        ("!gates(@0)", 6, "bound 2 open"),
        ("row(gate(?0), !?0)", 6, "bound 5 row(gate(open), shut)"),
    ] {
        assert_eq!(text(simple, rule, size, 100), expected, "{rule}, {size}");
    }
    let classes = symbols.language(Edition::ONE);
    assert_eq!(text(classes, "gates(stopped, doors())", 6, 100), "bound 3 gates(held, gates())");
    let rule = "gates(!open, !shut, !held)";
    assert_eq!(text(classes, rule, 5, 100), "bound 7 gates(shut, open, open)");
    let rule = "gates(!open, !shut)";
    assert_eq!(text(classes, rule, 6, 100), "bound 5 gates(shut, open)");
    // In edition 2 no list stands in a list of its class.
    let lists = "gates(!!gates(@0))";
    assert_eq!(text(classes, lists, 6, 100), "bound 5 gates(gates())");
    assert_eq!(text(classes.in_edition(Edition::TWO), lists, 6, 100), "no example 0");
}

#[test]
fn the_first_spent_candidate_decides() {
    let symbols = Symbols::parse(SYMBOLS).unwrap();
    let simple = Language::simple(symbols.table());
    // shut, held and so on count 1, gate(open) counts 2.
    assert_eq!(text(simple, "gate(open)", 6, 1), "spent 1");
    assert_eq!(text(simple, "gate(open)", 6, 2), "bound 2 gate(open)");
    // A bound candidate before it is the answer all the same.
    assert_eq!(text(simple, "!gate(open)", 6, 2), "bound 2 open");
    assert_eq!(text(simple, "!gate(open)", 6, 1), "spent 1");
    assert_eq!(text(simple, "?0", 6, 0), "spent 0");
    // No candidate, none that is spent.
    assert_eq!(text(simple, "?0", 0, 0), "no example 0");
    assert_eq!(text(Language::simple(&[]), "?0", 6, 0), "no example 0");
    assert_eq!(text(Language::simple(&[1, 2]), "?0", 6, 0), "no example 0");
}

#[test]
fn refusals_in_their_order() {
    let example = |language: Language, pattern: &[u8], size, room: usize| {
        let mut output = vec![7; room];
        let written = Reference.example(language, pattern, size, 9, &mut output);
        if written.number != 0 {
            assert_eq!(written, Written::refused(written.word().unwrap()));
            assert!(output.iter().all(|&byte| byte == 7));
        }
        written.word().unwrap()
    };
    let (table, wrong) = ([0, 2, LIST], [9]);
    let simple = Language::simple(&table);
    assert_eq!(example(simple.in_edition(Edition(3)), &[], 7, 0), Word::Directory);
    assert_eq!(example(Language::simple(&wrong), &[], 7, 0), Word::Long);
    assert_eq!(example(Language::simple(&wrong), &[], u32::MAX, 0), Word::Long);
    assert_eq!(example(Language::simple(&wrong), &[], 6, 0), Word::Table);
    assert_eq!(example(simple.with_classes(&[0]), &[], 6, 0), Word::Class);
    assert_eq!(example(simple, &[], 6, 0), Word::Short);
    assert_eq!(example(simple, &[0; 257], 6, 0), Word::Long);
    assert_eq!(example(simple, &[0, 0], 6, 0), Word::Spare);
    assert_eq!(example(simple.in_edition(Edition::TWO), &[2, 1, 2, 0], 6, 0), Word::Unspliced);
    assert_eq!(example(simple, &[248, 200], 6, 0), Word::NoExample);
    assert_eq!(example(simple, &[1, 200, 200], 6, 2), Word::Full);
    assert_eq!(example(simple, &[1, 200, 200], 6, 3), Word::Bound);
}

#[test]
fn writes_no_further_than_the_record() {
    let mut output = [7; 5];
    let written = Reference.example(Language::simple(&[0, 2]), &[1, 200, 201], 6, 9, &mut output);
    assert_eq!((written, output), (Written::bound(3, 3), [1, 0, 0, 7, 7]));
}

/// A small generator of numbers (xorshift64).
struct Draw(u64);

impl Draw {
    fn below(&mut self, limit: usize) -> usize {
        self.0 ^= self.0 << 13;
        self.0 ^= self.0 >> 7;
        self.0 ^= self.0 << 17;
        (self.0 >> 33) as usize % limit
    }

    /// Writes a pattern over a table; run names stand in lists alone.
    fn pattern(&mut self, table: &[u8], depth: usize, in_list: bool, bytes: &mut Vec<u8>) {
        let code = match self.below(10) {
            0 | 1 => 200 + self.below(2) as u8,
            2 if in_list => 232 + self.below(2) as u8,
            3 => 248,
            _ => self.below(table.len()) as u8,
        };
        let mut children = match code {
            248 => 1,
            200.. => 0,
            _ => table[usize::from(code)],
        };
        if depth == 0 && children > 0 {
            return bytes.push(200);
        }
        bytes.push(code);
        if children == LIST {
            children = self.below(4) as u8;
            bytes.push(children);
        }
        let list = code < 200 && table[usize::from(code)] == LIST;
        (0..children).for_each(|_| self.pattern(table, depth - 1, list, bytes));
    }
}

/// What an example comes to when every string is tried, shorter first and then by bytes: those that
/// are accepted records are the candidates.
fn by_trying(
    language: Language,
    pattern: &[u8],
    size: usize,
    allowance: u32,
) -> (Written, Vec<u8>) {
    let most = language.table.len().max(size) as u8;
    for length in 1..=size {
        let mut bytes = vec![0; length];
        loop {
            let (outcome, _) = Reference.find(language, pattern, &bytes, allowance);
            match outcome.word().unwrap() {
                Word::Bound => return (Written::bound(length, outcome.count), bytes),
                Word::Spent => return (Written::unbound(Word::Spent, outcome.count), Vec::new()),
                _ => {}
            }
            let Some(at) = bytes.iter().rposition(|&byte| byte < most) else { break };
            bytes[at] += 1;
            bytes[at + 1..].fill(0);
        }
    }
    (Written::refused(Word::NoExample), Vec::new())
}

#[test]
fn every_string_tried_comes_to_the_same() {
    let languages: [(&[u8], &[u8]); 4] = [
        (&[0, 0, 2, LIST], &[0, 1, 2, 3]),
        (&[0, 0, 0, LIST], &[0, 0, 2, 3]),
        (&[LIST, LIST, 0, 1], &[0, 0, 2, 3]),
        (&[1, 0, 0, 0, 2], &[0, 1, 2, 2, 4]),
    ];
    let (mut draw, mut words) = (Draw(5), Vec::new());
    for case in 0..600 {
        let (table, classes) = languages[case % 4];
        let edition = if draw.below(2) == 0 { Edition::ONE } else { Edition::TWO };
        let language = Language::simple(table).with_classes(classes).in_edition(edition);
        let mut pattern = Vec::new();
        draw.pattern(table, 3, false, &mut pattern);
        if Reference.cost(language, &pattern).word() == Some(Word::Unspliced) {
            continue;
        }
        let size = draw.below(5);
        let (plenty, _) = by_trying(language, &pattern, size, 1_000);
        let spent = if plenty.count == 0 { draw.below(12) as u32 } else { plenty.count as u32 - 1 };
        for allowance in [1_000, plenty.count as u32, spent] {
            let expected = by_trying(language, &pattern, size, allowance);
            for library in [Reference, Shortcuts] {
                let found = library.least(language, &pattern, size as u32, allowance);
                assert_eq!(found, expected, "{language:?}, {pattern:?}, {size}, {allowance}");
            }
            words.push(expected.0.word().unwrap());
        }
    }
    for word in [Word::Bound, Word::Spent, Word::NoExample] {
        assert!(words.iter().filter(|&&one| one == word).count() > 100, "{word:?}");
    }
}
