//! Moves: `apply`, `look`, and texts of moves as two sheets.

mod common;

use common::{folder, run, SYMBOLS};
use std::fs;
use std::path::Path;

/// Status and output of `apply` and of `look` with these arguments after the command.
fn both(folder: &Path, arguments: &[&str]) -> [(i32, String); 2] {
    ["apply", "look"].map(|command| run(folder, &[&[command], arguments].concat()))
}

/// A list of so many gates.
fn gates(n: usize) -> String {
    format!("gates({})", vec!["open"; n].join(", "))
}

#[test]
fn shows_the_new_state_or_its_length() {
    let folder = folder("apply");
    let classes = "open held gate/1 row/2 gates/* doors=gates stopped=held";
    for (options, symbols, text, state, next, length, count) in [
        (
            &[][..],
            SYMBOLS,
            "row(?0, ?1) => row(?1, ?0)",
            "row(open, gate(shut))",
            "row(gate(shut), open)",
            4,
            3,
        ),
        (
            &[],
            SYMBOLS,
            "gates(@0, shut, @1)=>gates(@0, open, @1)",
            "gates(shut, shut)",
            "gates(open, shut)",
            4,
            5,
        ),
        (&[], SYMBOLS, "gates(@0) => gates(@0, @0, held)", "gates()", "gates(held)", 3, 2),
        (&[], SYMBOLS, "row(?0, !?0) => ?0", "row(open, shut)", "open", 1, 4),
        (
            &["--edition", "2"],
            SYMBOLS,
            "row(?0, ?1) => gates(?0, ?1)",
            "row(gates(open), held)",
            "gates(open, held)",
            4,
            3,
        ),
        (
            &["--edition", "1"],
            SYMBOLS,
            "?0 => gates(?0)",
            "gates(open)",
            "gates(gates(open))",
            5,
            1,
        ),
        (&[], classes, "row(?0, ?0) => gate(?0)", "row(stopped, held)", "gate(stopped)", 2, 3),
        (
            &["--edition", "2"],
            classes,
            "?0 => doors(open, ?0)",
            "gates(held)",
            "doors(open, held)",
            4,
            1,
        ),
        (&["--allowance", "1"], SYMBOLS, "?0 => gate(?0)", "open", "gate(open)", 2, 1),
    ] {
        let shown = both(&folder, &[options, &[symbols, text, state]].concat());
        let line = |shown: &str| (0, format!("bound {count}\n{shown}\n"));
        assert_eq!(shown, [line(next), line(&format!("length {length}"))], "{text}");
    }
    fs::remove_dir_all(folder).unwrap();
}

#[test]
fn says_that_there_is_no_new_state() {
    let folder = folder("no-apply");
    let one = both(&folder, &[SYMBOLS, "row(?0, ?0) => ?0", "row(open, shut)"]);
    assert_eq!(one, [(); 2].map(|()| (1, "none 3\n".into())));
    let one = both(&folder, &["--allowance", "2", SYMBOLS, "row(?0, ?0) => ?0", "row(open, open)"]);
    assert_eq!(one, [(); 2].map(|()| (1, "spent 2\n".into())));
    fs::remove_dir_all(folder).unwrap();
}

#[test]
fn says_where_a_template_is_refused() {
    let folder = folder("refused-moves");
    let deep = format!("{}open{}", "gate(".repeat(31), ")".repeat(31));
    let many = format!("gates(@0) => gates({})", vec!["gates(@0)"; 21].join(", "));
    let (loose, outgrown) = ("18 loose", "19 outgrown");
    for (text, state, number, column, why) in [
        ("row(?0, !?1) => row(?0, ?1)", "open", loose, 25, "?1 is not free in the rule"),
        ("gates(@0) => gates(held, @1)", "open", loose, 26, "@1 is not free in the rule"),
        ("?0 => gate(!open)", "open", loose, 12, "a template has no complement"),
        (
            "gates(@0) => row(held, gates(@0, @0))",
            &gates(200),
            outgrown,
            24,
            "in the new state this list has over 255 elements",
        ),
        ("?0 => gate(?0)", &deep, outgrown, 12, "with this the new state has nesting over 32"),
        (&many, &gates(200), outgrown, 246, "with this the new state has over 4,096 bytes"),
    ] {
        let line = format!("refused {number}, template, column {column}: {why}\n");
        let found = both(&folder, &[SYMBOLS, text, state]);
        assert_eq!(found, [(); 2].map(|()| (1, line.clone())), "{text}");
    }
    fs::remove_dir_all(folder).unwrap();
}

#[test]
fn says_which_text_is_unspliced() {
    let folder = folder("apply-unspliced");
    for (text, state, place) in [
        ("gates(gates()) => open", "open", "rule, column 7"),
        ("?0 => gates(gates())", "open", "template, column 13"),
        ("?0 => gates(?0)", "gates(gates())", "state, column 7"),
    ] {
        for (status, shown) in both(&folder, &["--edition", "2", SYMBOLS, text, state]) {
            assert_eq!(status, 1);
            assert!(shown.starts_with(&format!("refused 16 unspliced, {place}: ")), "{shown}");
        }
    }
    fs::remove_dir_all(folder).unwrap();
}

#[test]
fn wrong_calls_and_texts() {
    let folder = folder("wrong-moves");
    for (arguments, told) in [
        (&[SYMBOLS, "open", "open"][..], "move, column 5: expected => and a template"),
        (&[SYMBOLS, "open => closed", "open"], "move, column 9: closed is not in the table"),
        (&[SYMBOLS, "row(?0) => ?0", "open"], "move, column 7: row takes 2 children, this is 1"),
        (&[SYMBOLS, "?0 => ?0 => ?0", "open"], "move, column 10: expected the end, found '='"),
        (&[SYMBOLS, "?0 => ?0", "closed"], "state, column 1: closed is not in the table"),
    ] {
        let line = (2, format!("qonveshir: {told}\n"));
        assert_eq!(both(&folder, arguments), [line.clone(), line]);
    }
    for command in ["apply", "look"] {
        let wrong = format!("qonveshir: a wrong call; see qonveshir {command} --help\n");
        assert_eq!(run(&folder, &[command, SYMBOLS, "?0 => ?0"]), (2, wrong));
    }
    fs::remove_dir_all(folder).unwrap();
}

const MOVES: &str = "\
mend: gates(@0, shut, @1) => gates(@0, open, @1)  # the first that is shut
row(?0, ?1) => row(?1, ?0)
";

#[test]
fn packs_moves_to_two_sheets() {
    let folder = folder("pack-moves");
    let call = |text: &str| run(&folder, &text.split(' ').collect::<Vec<_>>());
    fs::write(folder.join("moves"), MOVES).unwrap();
    let written = |said: &str| (0, format!("rules: 18 bytes{said}\ntemplates: 18 bytes{said}\n"));
    let texts = "gates(@0, shut, @1) => gates(@0, open, @1)\nrow(?0, ?1) => row(?1, ?0)\n";
    for (option, said) in [("", ""), ("--edition 2 ", ", edition 2")] {
        assert_eq!(
            call(&format!("pack moves {option}symbols moves rules templates")),
            written(said)
        );
        assert_eq!(call("unpack moves symbols rules templates"), (0, texts.into()));
    }
    // The sheets of edition 2 beside those of other moves, of edition 1, and of fewer moves.
    for (option, text, said) in [
        ("--edition 2 ", "open => open\n?0 => ?0\n", LOOSE),
        ("", MOVES, UNLIKE),
        ("--edition 2 ", "gates(@0, @1) => open\n", UNLIKE),
    ] {
        fs::write(folder.join("moves"), text).unwrap();
        assert_eq!(call(&format!("pack moves {option}symbols moves rules other")).0, 0);
        assert_eq!(
            call("unpack moves symbols rules templates"),
            (1, format!("templates: {said}\n"))
        );
    }
    fs::remove_dir_all(folder).unwrap();
}

const LOOSE: &str = "refused 18 loose, entry 0: a template with a complement, or a name or run \
                     name not free in the rule";
const UNLIKE: &str = "refused 9 directory: expected as many templates as rules, in their edition";

#[test]
fn says_which_move_cannot_be_packed() {
    let folder = folder("pack-wrong-moves");
    let pack = |edition: &str, text: &str| {
        fs::write(folder.join("moves"), text).unwrap();
        run(&folder, &["pack", "moves", "--edition", edition, "symbols", "moves", "r", "t"])
    };
    let (status, text) = pack("1", "a: ?0 => ?0\n\nb: !?0 => ?0\n");
    let loose = "moves: refused 18 loose, line 3, column 11: ?0 is not free in the rule\n";
    assert_eq!((status, &text[..]), (1, loose));
    let (status, text) = pack("2", "?0 => gates(gates(?0))\n");
    assert_eq!(status, 1);
    assert!(text.starts_with("moves: refused 16 unspliced, line 1, column 13: "), "{text}");
    let told = pack("1", "a: ?0 => ?0\na: ?0 => ?0\n");
    assert_eq!(told, (2, "qonveshir: moves: line 2: a names a line before\n".into()));
    assert!(!folder.join("r").exists() && !folder.join("t").exists());
    fs::remove_dir_all(folder).unwrap();
}

#[test]
fn splices_moves() {
    let folder = folder("splice-moves");
    let text = "a: gates(gates(@0)) => gates(@0, gates(open))  # b\nopen => shut\n";
    fs::write(folder.join("moves"), text).unwrap();
    assert_eq!(run(&folder, &["splice", "text", "symbols", "moves", "moves"]).0, 0);
    let spliced = "a: gates(@0) => gates(@0, open)  # b\nopen => shut\n";
    assert_eq!(fs::read_to_string(folder.join("moves")).unwrap(), spliced);
    let one = run(&folder, &["splice", "symbols", "?0 => gates(gates(?0))"]);
    assert_eq!(one, (0, "?0 => gates(?0)\n".into()));
    let (status, shown) = run(&folder, &["splice", "symbols", "?0 => closed"]);
    assert_eq!(
        (status, &shown[..]),
        (2, "qonveshir: move, column 7: closed is not in the table\n")
    );
    fs::remove_dir_all(folder).unwrap();
}

#[test]
fn explains_why_a_template_is_refused() {
    let folder = folder("explain-template");
    for (name, bytes) in [
        ("table", &[0, 0, 0, 1, 2, 255][..]),
        ("rule", &[4, 200, 248, 201]),
        ("good", &[4, 200, 200]),
        ("loose", &[4, 200, 201]),
        ("complement", &[3, 248, 0]),
        ("code", &[249]),
        ("long", &[0; 257]),
    ] {
        fs::write(folder.join(name), bytes).unwrap();
    }
    let accepted = "table: accepted as table\nrule: accepted as pattern\n";
    let explain =
        |name: &str| run(&folder, &["explain", "table", "--pattern", "rule", "--template", name]);
    assert_eq!(explain("good"), (0, format!("{accepted}good: accepted as template\n")));
    let expected = "no complement, and a name or run name only if it is free in the rule";
    for (name, refused, place, expected) in [
        ("loose", "18 loose", "2, which is 201", expected),
        ("complement", "18 loose", "1, which is 248", expected),
        ("long", "6 long", "256, which is 0", "at most 256 bytes"),
        (
            "code",
            "4 code",
            "0, which is 249",
            "a symbol from 0 to 5, a name 200 to 231, a run name 232 to 247 or the complement 248",
        ),
    ] {
        let text = format!("{name}: refused {refused}\ninput: template\nbyte: {place}\n");
        assert_eq!(explain(name), (1, format!("{text}expected: {expected}\n")));
    }
    let told = "qonveshir: --template: name its --pattern first\n";
    assert_eq!(run(&folder, &["explain", "table", "--template", "good"]), (2, told.into()));
    fs::remove_dir_all(folder).unwrap();
}
