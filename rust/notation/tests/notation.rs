//! Reading and writing of the notation, and the places that errors name.

use interface::{Edition, COMPLEMENT, FIRST_NAME};
use notation::{entries, Symbols};

fn symbols() -> Symbols {
    Symbols::parse("open shut held gate/1 row/2 gates/*").unwrap()
}

#[test]
fn patterns_read_and_print() {
    for (text, bytes) in [
        ("?0", vec![200]),
        ("row(!?0, ?31)", vec![4, 248, 200, 231]),
        ("gates(@0, !open, @15)", vec![5, 3, 232, 248, 0, 247]),
        ("gates()", vec![5, 0]),
        ("!!gate(held)", vec![248, 248, 3, 2]),
    ] {
        assert_eq!(symbols().pattern(text).unwrap(), bytes);
        assert_eq!(symbols().show_pattern(&bytes).unwrap(), text);
    }
    assert_eq!(symbols().pattern(" row ( ! ?0 ,\n?0 ) ").unwrap(), [4, 248, 200, 200]);
}

#[test]
fn terms_and_runs_print() {
    assert_eq!(symbols().show_term(&[4, 0, 5, 2, 1, 1]).unwrap(), "row(open, gates(shut, shut))");
    assert_eq!(symbols().show_run(&[0, 3, 1]).unwrap(), "open, gate(shut)");
    assert_eq!(symbols().show_run(&[]).unwrap(), "");
}

#[test]
fn tables_read_and_print() {
    let text = "open # first\n  gate/1\ngates/*";
    assert_eq!(Symbols::parse(text).unwrap().table(), [0, 1, 255]);
    assert_eq!(Symbols::parse(text).unwrap().to_string(), "open gate/1 gates/*");
    assert_eq!(symbols().to_string(), "open shut held gate/1 row/2 gates/*");
}

#[test]
fn classes_read_and_print() {
    let text = "open held gates/* stopped=held row/2 halted=stopped pair=row rows=gates";
    let symbols = Symbols::parse(text).unwrap();
    assert_eq!(symbols.table(), [0, 0, 255, 0, 2, 0, 2, 255]);
    assert_eq!(symbols.classes(), [0, 1, 2, 1, 4, 1, 4, 2]);
    let shown = symbols.to_string();
    assert_eq!(shown, text.replace("=stopped", "=held"));
    assert_eq!(Symbols::parse(&shown).unwrap(), symbols);
    let plain = Symbols::parse("open held gates/* stopped row/2 halted pair/2 rows/*").unwrap();
    assert_eq!(plain.classes(), [0, 1, 2, 3, 4, 5, 6, 7]);
    assert_eq!(plain.clone().with_classes(symbols.classes()).unwrap(), symbols);
    assert_eq!(symbols.clone().with_classes(plain.classes()).unwrap(), plain);
}

#[test]
fn errors_of_class_lists_name_the_place() {
    for (list, error) in [
        (&[][..], "byte 0: a list for 6 symbols, this has 0 bytes"),
        (&[0, 1, 2, 3, 4], "byte 5: a list for 6 symbols, this has 5 bytes"),
        (&[0, 1, 2, 3, 4, 5, 5], "byte 6: a list for 6 symbols, this has 7 bytes"),
        (&[0, 2, 2, 3, 4, 5], "byte 1: the class of shut is at most 1, this is 2"),
        (&[0, 0, 1, 3, 4, 5], "byte 2: shut is not its own class, so not that of held"),
        (&[0, 1, 2, 0, 4, 5], "byte 3: gate has not as many children as open"),
    ] {
        assert_eq!(symbols().with_classes(list).unwrap_err().to_string(), error, "{list:?}");
    }
}

#[test]
fn errors_of_texts_name_the_place() {
    for (text, error) in [
        ("", "column 1: expected a symbol, ?name, @run or !, found the end"),
        ("row(open)", "column 9: row takes 2 children, this is 1"),
        ("gate()", "column 6: gate takes 1 child, this is 0"),
        ("row", "column 4: expected ( after row"),
        ("row(open shut)", "column 10: expected , or ) within row"),
        ("open()", "column 5: expected the end, found '('"),
        ("gates(door)", "column 7: door is not in the table"),
        ("?32", "column 1: expected ?0 to ?31"),
        ("gates(@16)", "column 7: expected @0 to @15"),
        ("@0", "column 1: a run name may only be a direct child of a list"),
        ("gates(!@0)", "column 8: a run name may only be a direct child of a list"),
        ("row(open,\n  é)", "line 2, column 3: expected a symbol, ?name, @run or !, found 'é'"),
    ] {
        assert_eq!(symbols().pattern(text).unwrap_err().to_string(), error, "{text}");
    }
    let error = symbols().term("row(open, ?0)").unwrap_err().to_string();
    assert_eq!(error, "column 11: expected a symbol, found '?'");
    let list = |n| format!("gates({})", vec!["open"; n].join(", "));
    assert_eq!(symbols().term(&list(255)).unwrap().len(), 257);
    let error = symbols().term(&list(256)).unwrap_err().to_string();
    assert_eq!(error, "column 6: a list holds at most 255 children, not 256");
    let error = symbols().pattern(&list(255)).unwrap_err().to_string();
    assert_eq!(error, "column 1: the pattern takes 257 bytes, its limit is 256");
    let error = symbols().pattern(&"!gate(".repeat(33)).unwrap_err().to_string();
    assert_eq!(error, "column 193: nesting over 32");
}

#[test]
fn complements_do_not_nest() {
    let chain = |gates: usize| format!("{}!!open{}", "!gate(".repeat(gates), ")".repeat(gates));
    let bytes = symbols().pattern(&chain(31)).unwrap();
    assert_eq!(bytes, [[COMPLEMENT, 3].repeat(31), vec![COMPLEMENT, COMPLEMENT, 0]].concat());
    assert_eq!(symbols().show_pattern(&bytes).unwrap(), chain(31));
    let error = symbols().pattern(&chain(32)).unwrap_err().to_string();
    assert_eq!(error, "column 193: nesting over 32");
    let bytes = [[COMPLEMENT, 3].repeat(32), vec![COMPLEMENT, 0]].concat();
    let error = symbols().show_pattern(&bytes).unwrap_err().to_string();
    assert_eq!(error, "byte 64: nesting over 32");
    let row = format!("{}?0", "!".repeat(255));
    let bytes = symbols().pattern(&row).unwrap();
    assert_eq!(bytes, [vec![COMPLEMENT; 255], vec![FIRST_NAME]].concat());
    assert_eq!(symbols().show_pattern(&bytes).unwrap(), row);
    let error = symbols().pattern(&"!".repeat(1_000_000)).unwrap_err().to_string();
    assert_eq!(error, "column 1000001: expected a symbol, ?name, @run or !, found the end");
}

#[test]
fn errors_of_tables_name_the_place() {
    for (text, error) in [
        ("open\n gate/9", "line 2, column 2: expected 0 to 8 children or *, found \"9\""),
        ("open shut open", "column 11: open is named twice"),
        ("7", "column 1: expected a name of letters, digits, _ and -, found \"7\""),
        ("open # \n shut\tstopped=held", "line 2, column 15: \"held\" is not named before"),
        ("open open=open", "column 6: open is named twice"),
        ("open shut=shut", "column 11: \"shut\" is not named before"),
        ("open shut=", "column 11: \"\" is not named before"),
        (
            "gate/1 door/1=gate",
            "column 8: expected a name of letters, digits, _ and -, found \"door/1\"",
        ),
    ] {
        assert_eq!(Symbols::parse(text).unwrap_err().to_string(), error);
    }
}

#[test]
fn errors_of_bytes_name_the_place() {
    for (bytes, error) in [
        (&[][..], "byte 0: the bytes end before the last node"),
        (&[4, 0], "byte 2: the bytes end before the last node"),
        (&[0, 0], "byte 1: bytes after the last node"),
        (&[3, 200], "byte 1: 200 is not in the table"),
    ] {
        assert_eq!(symbols().show_term(bytes).unwrap_err().to_string(), error);
    }
}

/// A pattern over the symbols, chosen by a sequence of numbers.
fn random(next: &mut impl FnMut(usize) -> usize, nesting: usize, in_list: bool) -> Vec<u8> {
    let leaf = nesting >= 6;
    match next(if leaf { 5 } else { 9 }) {
        0..=2 => vec![next(3) as u8],
        3 => vec![200 + next(32) as u8],
        4 if in_list => vec![232 + next(16) as u8],
        4 => vec![231],
        5 => [vec![248], random(next, nesting + 1, false)].concat(),
        6 => [vec![3], random(next, nesting + 1, false)].concat(),
        7 => [vec![4], random(next, nesting + 1, false), random(next, nesting + 1, false)].concat(),
        _ => {
            let number = next(5);
            let children = (0..number).map(|_| random(next, nesting + 1, true)).collect::<Vec<_>>();
            [vec![5, number as u8], children.concat()].concat()
        }
    }
}

#[test]
fn printing_and_reading_are_inverse() {
    let (symbols, mut state) = (symbols(), 1u64);
    let mut next = |limit: usize| {
        state =
            state.wrapping_mul(6_364_136_223_846_793_005).wrapping_add(1_442_695_040_888_963_407);
        (state >> 33) as usize % limit
    };
    for _ in 0..20_000 {
        let bytes = random(&mut next, 1, false);
        let text = symbols.show_pattern(&bytes).unwrap();
        match symbols.pattern(&text) {
            Ok(read) => assert_eq!(read, bytes, "{text}"),
            Err(error) => assert!(bytes.len() > 256, "{text}: {error}"),
        }
    }
}

#[test]
fn nodes_have_their_places_in_the_text() {
    let shown = symbols().shown_pattern(&[5, 3, 232, 248, 248, 3, 0, 233]).unwrap();
    assert_eq!(shown.text, "gates(@0, !!gate(open), @1)");
    for (bytes, text) in [
        (0..8, "gates(@0, !!gate(open), @1)"),
        (2..3, "@0"),
        (3..7, "!!gate(open)"),
        (4..7, "!gate(open)"),
        (5..7, "gate(open)"),
        (6..7, "open"),
        (2..7, "@0, !!gate(open)"),
    ] {
        assert_eq!(&shown.text[shown.part(bytes.clone())], text, "{bytes:?}");
    }
    let shown = symbols().shown_term(&[5, 2, 5, 0, 1]).unwrap();
    assert_eq!(shown.text, "gates(gates(), shut)");
    assert_eq!(shown.part(2..2), 6..6);
    assert_eq!(shown.part(4..4), 15..15);
    assert_eq!(shown.part(5..5), 19..19);
    assert_eq!(shown.part(9..12), 19..19);
    let empty = symbols().shown_term(&[5, 0]).unwrap();
    assert_eq!((empty.part(0..2), empty.part(2..2)), (0..7, 6..6));
}

#[test]
fn bytes_have_their_places_in_the_text() {
    let symbols = symbols();
    let text = " gates(@0,\n  ! !gate( open ), gates())";
    let parsed = symbols.parsed_pattern(text).unwrap();
    assert_eq!(parsed.bytes, [5, 3, 232, 248, 248, 3, 0, 5, 0]);
    for (at, place) in [
        (0, "column 2"),
        (1, "column 2"),
        (2, "column 8"),
        (3, "line 2, column 3"),
        (4, "line 2, column 5"),
        (5, "line 2, column 6"),
        (6, "line 2, column 12"),
        (7, "line 2, column 20"),
        (8, "line 2, column 20"),
    ] {
        assert_eq!(parsed.error(at, "here").to_string(), format!("{place}: here"), "byte {at}");
    }
}

#[test]
fn symbols_are_a_language() {
    let symbols = Symbols::parse("open gates/* doors=gates").unwrap();
    let language = symbols.language(Edition::TWO);
    assert_eq!((language.table, language.edition), (&[0, 255, 255][..], Edition::TWO));
    assert_eq!(language.classes, Some(&[0, 1, 1][..]));
}

#[test]
fn texts_have_named_lines() {
    let text = "a: open # first\n\n# none\n  b-2 :shut\nheld\n?: open\n: open\nc: d: open";
    let found: Vec<_> =
        entries(text).map(|entry| (entry.line, entry.name, entry.body.clone())).collect();
    let expected = [
        (1, Some("a"), "   open "),
        (4, Some("b-2"), "       shut"),
        (5, None, "held"),
        (6, None, "?: open"),
        (7, None, ": open"),
        (8, Some("c"), "   d: open"),
    ];
    assert_eq!(found, expected.map(|(line, name, body)| (line, name, body.to_string())));
}

#[test]
fn moves_read_and_print() {
    let symbols = symbols();
    let text = "gates(@0, !open, @1) => row(gates(@1), ?0)";
    let parts = symbols.parsed_move(text).unwrap();
    assert_eq!(parts.rule.bytes, [5, 3, 232, 248, 0, 233]);
    assert_eq!(parts.template.bytes, [4, 5, 1, 233, 200]);
    let shown = symbols.show_move(&parts.rule.bytes, &parts.template.bytes);
    assert_eq!(shown.unwrap(), text);
    assert!(symbols.parsed_move(" open=>open ").is_ok());
    // Places are those of the whole text.
    let column = |at: usize| parts.template.error(at, "here").to_string();
    assert_eq!(column(0), "column 25: here");
    assert_eq!(column(4), "column 40: here");
    assert_eq!(parts.rule.error(4, "here").to_string(), "column 12: here");
    let long = format!("open => gates({})", vec!["?0"; 255].join(", "));
    for (text, error) in [
        ("open", "column 5: expected => and a template"),
        ("=> open", "column 1: expected a symbol, ?name, @run or !, found the end"),
        ("open =>", "column 8: expected a symbol, ?name, @run or !, found the end"),
        ("open => row(open)", "column 17: row takes 2 children, this is 1"),
        ("@0 => open", "column 1: a run name may only be a direct child of a list"),
        ("open => open => open", "column 14: expected the end, found '='"),
        (&long, "column 9: the pattern takes 257 bytes, its limit is 256"),
    ] {
        assert_eq!(symbols.parsed_move(text).unwrap_err().to_string(), error, "{text}");
    }
}
