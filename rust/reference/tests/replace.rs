//! Replacement: results, refusals in their order, and limits.

use interface::{Edition, Language, Library, Word, Written, LIST, RECORD_LIMIT};
use notation::Symbols;
use reference::Reference;

const SYMBOLS: &str = "open shut held gate/1 row/2 gates/* bays/* doors=gates stopped=held";

fn symbols() -> Symbols {
    Symbols::parse(SYMBOLS).unwrap()
}

/// Word, count and length of applying, which a look has too, and the result. The output is just as
/// long as that; one byte less is full.
fn applied(language: Language, [rule, template, state]: [&[u8]; 3], n: u32) -> (Written, Vec<u8>) {
    let look = Reference.look(language, rule, template, state, n);
    let call = |output: &mut [u8]| Reference.apply(language, rule, template, state, n, output);
    let mut output = vec![7; look.length as usize];
    assert_eq!(call(&mut output), look);
    if look.number != 0 {
        assert_eq!(look.length, 0);
        assert_refused(look.word().unwrap(), |output| call(output));
        return (look, output);
    }
    let mut long = vec![7; output.len() + 3];
    assert_eq!(call(&mut long), look);
    assert_eq!(long, [&output[..], &[7; 3]].concat());
    assert_eq!(call(&mut vec![7; RECORD_LIMIT]), look);
    let mut short = vec![7; output.len() - 1];
    assert_eq!(call(&mut short), Written::refused(Word::Full));
    assert!(short.iter().all(|&byte| byte == 7));
    (look, output)
}

/// A call that is not bound writes nothing.
fn assert_refused(word: Word, call: impl Fn(&mut [u8]) -> Written) {
    let mut output = vec![7; RECORD_LIMIT];
    let shown = call(&mut output);
    assert_eq!((shown.word(), shown.length), (Some(word), 0));
    assert!(output.iter().all(|&byte| byte == 7), "{word:?} wrote");
}

/// Word, count and result of texts in a language.
fn texts(language: Language, rule: &str, template: &str, state: &str) -> String {
    let symbols = symbols();
    let [rule, template, state] =
        [rule, template, state].map(|text| symbols.pattern(text).unwrap());
    let (written, output) = applied(language, [&rule, &template, &state], 1_000);
    let mut text = format!("{} {}", written.word().unwrap().text(), written.count);
    if written.number == 0 {
        text = text + " " + &symbols.show_term(&output).unwrap();
    }
    text
}

#[test]
fn the_first_answers_parts_are_put_in() {
    let symbols = symbols();
    let simple = Language::simple(symbols.table());
    for (rule, template, state, expected) in [
        ("row(?0, ?1)", "row(?1, ?0)", "row(open, gate(shut))", "bound 3 row(gate(shut), open)"),
        ("row(?0, ?1)", "held", "row(open, open)", "bound 3 held"),
        ("?0", "row(?0, gate(?0))", "gate(open)", "bound 1 row(gate(open), gate(gate(open)))"),
        (
            "gates(@0, shut, @1)",
            "gates(@0, open, @1)",
            "gates(held, shut)",
            "bound 6 gates(held, open)",
        ),
        // The first answer's parts, not a later one's.
        (
            "gates(@0, @1)",
            "row(gates(@0), bays(@1))",
            "gates(open)",
            "bound 4 row(gates(), bays(open))",
        ),
        // An empty run, and a run three times.
        ("gates(@0)", "gates(@0, @0)", "gates()", "bound 2 gates()"),
        (
            "gates(@0)",
            "gates(@0, held, @0, @0)",
            "gates(open)",
            "bound 3 gates(open, held, open, open)",
        ),
        // A list in a list stays one in edition 1.
        (
            "row(?0, gates(@0))",
            "gates(?0, @0)",
            "row(gates(), gates(open))",
            "bound 5 gates(gates(), open)",
        ),
        // A complement may stand in the rule; a name that is also free outside it is free.
        ("row(?0, !?0)", "gate(?0)", "row(open, shut)", "bound 4 gate(open)"),
        ("row(?0, !?0)", "gate(?0)", "row(open, open)", "none 4"),
    ] {
        assert_eq!(texts(simple, rule, template, state), expected, "{rule} => {template}");
    }
}

#[test]
fn edition_2_splices_the_result() {
    let symbols = symbols();
    let two = Language::simple(symbols.table()).in_edition(Edition::TWO);
    let classes = two.with_classes(symbols.classes());
    let state = "row(gates(open, shut), doors(held))";
    for (rule, template, simple, up_to_class) in [
        (
            "row(?0, ?1)",
            "gates(?0, ?1)",
            "gates(open, shut, doors(held))",
            "gates(open, shut, held)",
        ),
        (
            "row(?0, ?1)",
            "doors(?0, ?1)",
            "doors(gates(open, shut), held)",
            "doors(open, shut, held)",
        ),
        ("row(?0, ?1)", "bays(?0, gate(?1))", "bays(gates(open, shut), gate(doors(held)))", ""),
        ("row(?0, ?1)", "gates(gate(?0))", "gates(gate(gates(open, shut)))", ""),
        ("row(?0, ?1)", "row(?1, ?0)", "row(doors(held), gates(open, shut))", ""),
    ] {
        let up_to_class = if up_to_class.is_empty() { simple } else { up_to_class };
        assert_eq!(texts(two, rule, template, state), format!("bound 3 {simple}"), "{template}");
        let found = texts(classes, rule, template, state);
        assert_eq!(found, format!("bound 3 {up_to_class}"), "{template}");
    }
    // The elements of a run too, empty ones leaving nothing.
    let run = |language| {
        texts(language, "bays(@0)", "gates(@0, @0)", "bays(gates(), open, doors(shut, bays()))")
    };
    assert_eq!(run(two), "bound 5 gates(open, doors(shut, bays()), open, doors(shut, bays()))");
    assert_eq!(run(classes), "bound 5 gates(open, shut, bays(), open, shut, bays())");
}

#[test]
fn up_to_class_the_first_place_is_shown() {
    let symbols = symbols();
    let language = Language::simple(symbols.table()).with_classes(symbols.classes());
    let put = |state| texts(language, "row(?0, ?0)", "gates(?0, held)", state);
    assert_eq!(put("row(stopped, held)"), "bound 3 gates(stopped, held)");
    assert_eq!(put("row(held, stopped)"), "bound 3 gates(held, held)");
    let run = |state| texts(language, "row(gates(@0), gates(@0))", "doors(@0)", state);
    assert_eq!(run("row(gates(open, stopped), doors(open, held))"), "bound 7 doors(open, stopped)");
    let alone = Language::simple(symbols.table());
    assert_eq!(texts(alone, "row(?0, ?0)", "?0", "row(stopped, held)"), "none 3");
}

#[test]
fn allowances() {
    let symbols = symbols();
    let simple = Language::simple(symbols.table());
    let [rule, template, state] = ["gates(@0, shut)", "gate(gates(@0))", "gates(open, shut)"]
        .map(|text| symbols.pattern(text).unwrap());
    let call = |n| applied(simple, [&rule, &template, &state], n).0;
    assert_eq!(call(5), Written::bound(4, 5));
    assert_eq!(call(u32::MAX), Written::bound(4, 5));
    assert_eq!(call(4), Written::unbound(Word::Spent, 4));
    assert_eq!(call(0), Written::unbound(Word::Spent, 0));
}

/// open, gate (1), gates (list), a list of the same class, another list
const TABLE: [u8; 5] = [0, 1, LIST, LIST, LIST];
const CLASSES: [u8; 5] = [0, 1, 2, 2, 4];

#[test]
fn refusals_in_their_order() {
    let simple = Language::simple(&TABLE);
    let told = simple.with_classes(&CLASSES).in_edition(Edition::TWO);
    let word = |language: Language, rule: &[u8], template: &[u8], state: &[u8]| {
        let look = Reference.look(language, rule, template, state, 9);
        let call = |output: &mut [u8]| Reference.apply(language, rule, template, state, 9, output);
        assert_eq!((look.length, look.count), (0, 0));
        assert_refused(look.word().unwrap(), call);
        assert_eq!(call(&mut []), look);
        look.word().unwrap()
    };
    // What comes after a fault is at fault too.
    let (loose, bad): (&[u8], &[u8]) = (&[248, 0], &[200]);
    assert_eq!(
        word(Language::simple(&[9]).with_classes(&[]).in_edition(Edition(3)), &[], &[], &[]),
        Word::Directory
    );
    assert_eq!(
        word(Language::simple(&[9]).with_classes(&[]).in_edition(Edition::TWO), &[], &[], &[]),
        Word::Table
    );
    assert_eq!(word(told.with_classes(&[0]), &[], &[], &[]), Word::Class);
    assert_eq!(word(simple.with_classes(&[]), &[], &[], &[]), Word::Class);
    for (pattern, found) in [
        (&[][..], Word::Short),
        (&[0, 0], Word::Spare),
        (&[249], Word::Code),
        (&[5], Word::Code),
        (&[1; 33], Word::Deep),
        (&[0; 257], Word::Long),
        (&[1, 232], Word::Stray),
        (&[2, 1, 3, 0], Word::Unspliced),
    ] {
        assert_eq!(word(told, pattern, &[], bad), found, "the rule");
        assert_eq!(word(told, pattern, loose, bad), found, "the rule");
        assert_eq!(word(told, &[200], pattern, bad), found, "the template");
    }
    // The template's other checks come before 18, even where the loose node is the first.
    assert_eq!(word(told, &[200], &[248, 249], bad), Word::Code);
    assert_eq!(word(told, &[200], &[248, 201, 0], bad), Word::Spare);
    assert_eq!(word(told, &[200], loose, bad), Word::Loose);
    for (state, found) in [(bad, Word::Code), (&[], Word::Short), (&[2, 1, 3, 0], Word::Unspliced)]
    {
        assert_eq!(word(told, &[200], &[200], state), found, "the record");
    }
}

#[test]
fn loose_templates() {
    let symbols = symbols();
    let simple = Language::simple(symbols.table());
    for (rule, template, expected) in [
        ("?0", "!open", "loose 0"),
        ("?0", "row(open, !?0)", "loose 0"),
        ("?0", "gates(@0)", "loose 0"),
        ("gates(@0)", "?0", "loose 0"),
        ("gates(@0)", "gates(@1)", "loose 0"),
        // Bound within a complement only.
        ("!row(?0, ?1)", "?1", "loose 0"),
        ("!!?0", "?0", "loose 0"),
        ("gates(!gates(@0, ?1))", "gates(@0)", "loose 0"),
        ("!gates(@0)", "gates(@0)", "loose 0"),
        ("!row(?0, ?1)", "open", "bound 2 open"),
        ("!gates(@0)", "held", "bound 2 held"),
    ] {
        assert_eq!(texts(simple, rule, template, "open"), expected, "{rule} => {template}");
    }
}

/// What a template gives on a record that a lone name takes.
fn by_name(language: Language, template: &[u8], record: &[u8]) -> Written {
    applied(language, [&[200], template, record], 9).0
}

/// A list of so many leaves.
fn leaves(list: u8, n: usize) -> Vec<u8> {
    [vec![list, n as u8], vec![0; n]].concat()
}

#[test]
fn results_of_4_096_bytes() {
    let simple = Language::simple(&TABLE);
    // A record of 2,046 bytes, put in twice.
    let lists = |last: usize| {
        let lists = [leaves(2, 255).repeat(7), leaves(2, last)].concat();
        [vec![4, 8], lists].concat()
    };
    let record = lists(2_046 - 2 - 7 * 257 - 2);
    assert_eq!(record.len(), 2_046);
    assert_eq!(by_name(simple, &[2, 2, 200, 200], &record), Written::bound(4_094, 1));
    assert_eq!(by_name(simple, &[2, 4, 200, 200, 0, 0], &record), Written::bound(4_096, 1));
    let outgrown = Written::refused(Word::Outgrown);
    assert_eq!(by_name(simple, &[2, 5, 200, 200, 0, 0, 0], &record), outgrown);
    assert_eq!(by_name(simple, &[2, 3, 200, 200, 200], &record), outgrown);
}

#[test]
fn results_of_nesting_32() {
    let simple = Language::simple(&TABLE);
    let two = simple.in_edition(Edition::TWO).with_classes(&CLASSES);
    let gates = |n: usize, last: u8| [vec![1; n], vec![last]].concat();
    let outgrown = Written::refused(Word::Outgrown);
    assert_eq!(by_name(simple, &gates(31, 200), &[0]), Written::bound(32, 1));
    assert_eq!(by_name(simple, &gates(16, 200), &gates(15, 0)), Written::bound(32, 1));
    assert_eq!(by_name(simple, &gates(16, 200), &gates(16, 0)), outgrown);
    assert_eq!(by_name(simple, &gates(1, 200), &gates(31, 0)), outgrown);
    // The deepest of a part's terms counts, not the last one.
    let row = |n: usize| [vec![2, 2], gates(n, 0), vec![0]].concat();
    assert_eq!(by_name(simple, &gates(15, 200), &row(15)), Written::bound(34, 1));
    assert_eq!(by_name(simple, &gates(15, 200), &row(16)), outgrown);
    let run = |n: usize| applied(simple, [&[2, 1, 232], &[1, 1, 2, 1, 232], &row(n)], 99).0;
    assert_eq!((run(28).word(), run(29).word()), (Some(Word::Bound), Some(Word::Outgrown)));
    // A list that is spliced away takes its nesting with it.
    let list = [vec![2, 1], gates(30, 0)].concat();
    assert_eq!(by_name(two, &[3, 1, 200], &list), Written::bound(33, 1));
    assert_eq!(by_name(simple, &[3, 1, 200], &list), outgrown);
    assert_eq!(by_name(two, &[4, 1, 200], &list), outgrown);
}

#[test]
fn results_of_255_elements() {
    let simple = Language::simple(&TABLE);
    let two = simple.in_edition(Edition::TWO).with_classes(&CLASSES);
    let put = |language, template: &[u8], n| {
        applied(language, [&[4, 1, 232], template, &leaves(4, n)], 999).0
    };
    let outgrown = Some(Word::Outgrown);
    let bound = |length| {
        move |written: Written| (written.word(), written.length) == (Some(Word::Bound), length)
    };
    assert!(bound(257)(put(simple, &[2, 3, 232, 232, 232], 85)));
    assert!(bound(255)(put(simple, &[2, 4, 232, 232, 0, 232], 84)));
    assert_eq!(put(simple, &[2, 4, 232, 232, 0, 232], 85).word(), outgrown);
    assert_eq!(put(simple, &[2, 2, 232, 0], 255).word(), outgrown);
    // By splicing: the elements of the list that a name stands for.
    let record = leaves(3, 200);
    let template = |more: usize| [vec![2, more as u8 + 1, 200], vec![0; more]].concat();
    assert!(bound(257)(by_name(two, &template(55), &record)));
    assert_eq!(by_name(two, &template(56), &record).word(), outgrown);
    assert!(bound(260)(by_name(simple, &template(56), &record)));
    // 255 empty lists, put in 120 times, are 61,202 bytes before splicing, and 2 after.
    let empty = [vec![4, 255], [2, 0].repeat(255)].concat();
    let template = [vec![2, 120], vec![232; 120]].concat();
    let call = |language| applied(language, [&[4, 1, 232], &template, &empty], 999).0;
    assert!(bound(2)(call(two)));
    assert_eq!(call(simple).word(), outgrown);
}

#[test]
fn templates_of_256_bytes() {
    let simple = Language::simple(&TABLE);
    let template = |n: usize| [vec![2, n as u8], vec![200; n]].concat();
    assert_eq!(by_name(simple, &template(254), &[0]), Written::bound(256, 1));
    assert_eq!(by_name(simple, &template(255), &[0]), Written::refused(Word::Long));
}
