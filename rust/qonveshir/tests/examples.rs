//! `example`: the smallest state that a rule holds of.

mod common;

use common::{folder, run, SYMBOLS};
use std::fs;

#[test]
fn shows_the_smallest_state() {
    let folder = folder("example");
    let example = |arguments: &[&str]| run(&folder, &[&["example"], arguments].concat());
    let classes = "open held gate/1 row/2 gates/* doors=gates stopped=held";
    for (arguments, shown) in [
        (&[SYMBOLS, "?0"][..], "bound 1\nopen\n"),
        (&["symbols", "gates(@0, !open, @1)"], "bound 5\ngates(shut)\n"),
        (&["symbols", "gates(@0, !?0, @1, ?0, @2)"], "bound 7\ngates(open, shut)\n"),
        (&["symbols", "row(?0, !?0)", "--size", "3"], "bound 4\nrow(open, shut)\n"),
        (
            &["--size", "3", "--allowance", "4", "symbols", "row(?0, !?0)"],
            "bound 4\nrow(open, shut)\n",
        ),
        (&["symbols", "gates(!!gates(@0))"], "bound 5\ngates(gates())\n"),
        (&[classes, "row(!open, stopped)"], "bound 4\nrow(held, held)\n"),
    ] {
        assert_eq!(example(arguments), (0, shown.into()), "{arguments:?}");
    }
    fs::remove_dir_all(folder).unwrap();
}

#[test]
fn says_that_there_is_none() {
    let folder = folder("no-example");
    let example = |arguments: &[&str]| run(&folder, &[&["example"], arguments].concat());
    let none = "refused 22 no example: the rule holds of no state of up to";
    for (arguments, shown) in [
        (&["symbols", "!?0"][..], format!("{none} 6 bytes\n")),
        (&["symbols", "gates(?0, !?1)", "--size", "4"], format!("{none} 4 bytes\n")),
        (
            &["symbols", "row(?0, ?1)", "--size", "2"],
            format!("{none} 2 bytes; it has nodes for 3\n"),
        ),
        (&["symbols", "?0", "--size", "0"], format!("{none} 0 bytes; it has nodes for 1\n")),
        (
            &["symbols", "gates(gates(@0), !held, gate(?0), @1)"],
            format!("{none} 6 bytes; it has nodes for 7\n"),
        ),
        // A list in a list of its symbol is no state of edition 2.
        (&["--edition", "2", "symbols", "gates(!!gates(@0))"], format!("{none} 6 bytes\n")),
        (
            &["--allowance", "3", "symbols", "row(?0, !?0)"],
            "spent 3: the allowance ends the search; see --allowance\n".into(),
        ),
    ] {
        assert_eq!(example(arguments), (1, shown), "{arguments:?}");
    }
    let (status, shown) = example(&["--edition", "2", "symbols", "gates(gates(@0))"]);
    assert!(status == 1 && shown.starts_with("refused 16 unspliced, rule, column 7: "), "{shown}");
    fs::remove_dir_all(folder).unwrap();
}

#[test]
fn wrong_calls() {
    let folder = folder("wrong-example");
    let wrong = "a wrong call; see qonveshir example --help";
    for (arguments, told) in [
        (&["symbols"][..], wrong),
        (&["symbols", "?0", "open"], wrong),
        (&["symbols", "?0", "--size"], wrong),
        (&["symbols", "?0", "--allowance"], wrong),
        (&["symbols", "?0", "--size", "7"], "--size 7: expected 0 to 6"),
        (&["symbols", "?0", "--size", "-1"], "--size -1: expected 0 to 6"),
        (&["symbols", "?0", "--allowance", "x"], "--allowance x: expected 0 to 4294967295"),
        (&["symbols", "?0", "--edition", "3"], "--edition 3: expected --edition 1 or --edition 2"),
        (&["symbols", "closed"], "rule, column 1: closed is not in the table"),
    ] {
        let line = (2, format!("qonveshir: {told}\n"));
        assert_eq!(run(&folder, &[&["example"], arguments].concat()), line, "{arguments:?}");
    }
    fs::remove_dir_all(folder).unwrap();
}

/// What `example` shows, `match` is bound on, with the same count.
#[test]
fn a_match_says_the_same() {
    let folder = folder("example-match");
    for rule in ["?0", "!open", "row(!gate(?0), !!gate(?0))", "gates(@0, ?0, @1, ?0, @2)"] {
        let (status, shown) = run(&folder, &["example", "symbols", rule]);
        let (word, state) = shown.trim_end().split_once('\n').unwrap();
        assert_eq!(status, 0);
        let (_, found) = run(&folder, &["match", "symbols", rule, state]);
        assert_eq!(found.lines().next(), Some(word), "{rule}");
    }
    fs::remove_dir_all(folder).unwrap();
}

#[test]
fn explains_where_the_number_comes_from() {
    let folder = folder("explain-example");
    let text =
        "22 no example: no record up to that size satisfies the pattern\nfrom qonveshir example\n";
    assert_eq!(run(&folder, &["explain", "22"]), (0, text.into()));
    fs::remove_dir_all(folder).unwrap();
}
