//! `session`: lists of calls, errors that change nothing, and the status.

mod common;

use common::{folder, program, SYMBOLS};
use std::fs;
use std::io::Write;
use std::path::Path;
use std::process::Stdio;

/// Status, output and errors of a session that reads these bytes.
fn session(folder: &Path, arguments: &[&str], script: &[u8]) -> (i32, String, String) {
    let mut command = program(folder, &[&["session"], arguments].concat());
    command.stdin(Stdio::piped()).stdout(Stdio::piped()).stderr(Stdio::piped());
    let mut child = command.spawn().unwrap();
    // A session that ends early reads no further.
    let _ = child.stdin.take().unwrap().write_all(script);
    let output = child.wait_with_output().unwrap();
    let [out, err] = [output.stdout, output.stderr].map(|text| String::from_utf8(text).unwrap());
    (output.status.code().unwrap(), out, err)
}

const MEND: &str = "apply gates(@0, shut, @1) => gates(@0, open, @1)";

#[test]
fn moves_keeps_and_returns() {
    let folder = folder("session");
    let script = format!(
        "# a day\n\nshow\nkept\nkeep morning\n{MEND}\nkeep noon # before the last\n{MEND}\n  kept\n\
         return morning\nshow\nkeep noon\nkept"
    );
    let shown = "\
gates(shut, held, shut)
nothing is kept
kept morning
bound 6
gates(open, held, shut)
kept noon
bound 8
gates(open, held, open)
morning: gates(shut, held, shut)
noon: gates(open, held, shut)
gates(shut, held, shut)
gates(shut, held, shut)
kept noon, in place of gates(open, held, shut)
morning: gates(shut, held, shut)
noon: gates(shut, held, shut)
";
    let arguments = ["symbols", "gates(shut, held, shut)"];
    let done = session(&folder, &arguments, script.as_bytes());
    assert_eq!(done, (0, shown.into(), String::new()));
    let windows = script.replace('\n', "\r\n");
    assert_eq!(session(&folder, &arguments, windows.as_bytes()), done);
    fs::remove_dir_all(folder).unwrap();
}

#[test]
fn a_refused_line_changes_nothing_and_the_session_goes_on() {
    let folder = folder("session-refused");
    let classes = "open held gate/1 gates/* doors=gates stopped=held";
    for (options, symbols, state, line, shown) in [
        (&[][..], SYMBOLS, "gates(open)", MEND, "none 4"),
        (&["--allowance", "3"], SYMBOLS, "gates(open)", MEND, "spent 3"),
        (
            &[],
            SYMBOLS,
            "open",
            "apply  ?0 => gate(?1)",
            "refused 18 loose, template, column 19: ?1 is not free in the rule",
        ),
        (
            &[],
            SYMBOLS,
            &format!("{}open{}", "gate(".repeat(31), ")".repeat(31)),
            "apply ?0 => gate(?0)",
            "refused 19 outgrown, template, column 18: with this the new state has nesting over 32",
        ),
        (
            &[],
            classes,
            "stopped",
            "return dusk",
            "dusk: refused 20 no name: no state is kept under that name; nothing is kept",
        ),
    ] {
        let script = format!("{line}\nshow\nkept\n");
        let arguments = [options, &[symbols, state]].concat();
        let text = format!("{shown}\n{state}\nnothing is kept\n");
        assert_eq!(session(&folder, &arguments, script.as_bytes()), (1, text, String::new()));
    }
    fs::remove_dir_all(folder).unwrap();
}

#[test]
fn eight_names_and_a_ninth() {
    let folder = folder("session-shelf");
    let keeps: String = (1..=9).map(|i| format!("keep n{i}\n")).collect();
    let script = keeps + "apply ?0 => gate(?0)\nkeep n9\nkeep n3\nreturn n9\nkept\n";
    let (status, shown, _) = session(&folder, &["symbols", "open"], script.as_bytes());
    let names = "n1, n2, n3, n4, n5, n6, n7, n8";
    let shelf = "refused 21 shelf: eight states are kept, and the name is a ninth";
    let lines: Vec<&str> = shown.lines().collect();
    assert_eq!(status, 1);
    assert_eq!(lines[7..9], ["kept n8", &format!("n9: {shelf}; kept are {names}")]);
    assert_eq!(lines[11..13], [lines[8], "kept n3, in place of open"]);
    assert!(lines[13].starts_with("n9: refused 20 no name: "), "{shown}");
    let kept = lines[14..].join(" ");
    assert_eq!(
        kept,
        "n1: open n2: open n3: gate(open) n4: open n5: open n6: open n7: open n8: open"
    );
    fs::remove_dir_all(folder).unwrap();
}

#[test]
fn a_line_that_cannot_be_read_changes_nothing() {
    let folder = folder("session-wrong");
    let long = format!("keep {}", "a".repeat(3 << 20));
    for (line, told) in [
        (&b"apply open"[..], "move, column 11: expected => and a template"),
        (b"apply ?0 => closed", "move, column 13: closed is not in the table"),
        (b" apply row(?0) => ?0", "move, column 14: row takes 2 children, this is 1"),
        (b"apply", "expected a move after apply, RULE => TEMPLATE"),
        (b"keep", "\"\": expected a name of letters, digits, - and _"),
        (b"keep no on", "\"no on\": expected a name of letters, digits, - and _"),
        (b"return a:", "\"a:\": expected a name of letters, digits, - and _"),
        (b"mend", "mend: no such command; see help"),
        (b"show it", "expected the end after show, found \"it\""),
        (b"keep \xff", "not text in UTF-8"),
        (long.as_bytes(), "over 1048576 bytes"),
    ] {
        let script = [b"keep a\n", line, b"\nshow\nkept\n"].concat();
        let (status, shown, errors) = session(&folder, &["symbols", "open"], &script);
        assert_eq!((status, &shown[..]), (2, "kept a\nopen\na: open\n"));
        assert_eq!(errors, format!("qonveshir: line 2, {told}\n"));
    }
    fs::remove_dir_all(folder).unwrap();
}

#[test]
fn editions_and_classes() {
    let folder = folder("session-edition");
    let script = b"apply row(?0, ?1) => gates(?0, ?1)\n";
    let state = "row(gates(open), held)";
    for (edition, next) in [("1", "gates(gates(open), held)"), ("2", "gates(open, held)")] {
        let shown = session(&folder, &["--edition", edition, "symbols", state], script).1;
        assert_eq!(shown, format!("bound 3\n{next}\n"));
    }
    let script = b"apply gates(gates()) => open\nshow\n";
    let (status, shown, _) = session(&folder, &["symbols", "open", "--edition", "2"], script);
    assert_eq!(status, 1);
    assert!(shown.starts_with("refused 16 unspliced, rule, column 13: "), "{shown}");
    assert!(shown.ends_with("\nopen\n"), "{shown}");
    let classes = "open held row/2 stopped=held";
    let script = b"apply row(?0, ?0) => ?0\n";
    assert_eq!(session(&folder, &[classes, "row(stopped, held)"], script).1, "bound 3\nstopped\n");
    fs::remove_dir_all(folder).unwrap();
}

#[test]
fn how_a_session_begins_and_ends() {
    let folder = folder("session-ends");
    let of = |arguments: &[&str], script: &[u8]| session(&folder, arguments, script);
    let nothing = (0, String::new(), String::new());
    assert_eq!(of(&["symbols", "open"], b""), nothing);
    for end in ["quit", "exit"] {
        let script = format!("{end}\nshow\n");
        assert_eq!(of(&["symbols", "open"], script.as_bytes()), nothing);
    }
    assert!(of(&["symbols", "open"], b"help\n").1.contains("\nkeep NAME "));
    let (status, shown, _) = of(&["--edition", "2", "symbols", "gates(gates())"], b"show\n");
    assert_eq!(status, 1);
    assert!(shown.starts_with("refused 16 unspliced, state, column 7: "), "{shown}");
    let wrong = "a wrong call; see qonveshir session --help";
    for (arguments, told) in [
        (&["symbols"][..], wrong),
        (&["symbols", "open", "open"], wrong),
        (&["symbols", "open", "--allowance"], wrong),
        (&["symbols", "?0"], "state, column 1: expected a symbol, found '?'"),
    ] {
        let (status, shown, errors) = of(arguments, b"show\n");
        assert_eq!((status, &shown[..]), (2, ""));
        assert_eq!(errors, format!("qonveshir: {told}\n"));
    }
    fs::remove_dir_all(folder).unwrap();
}

#[test]
fn explains_where_the_numbers_come_from() {
    let folder = folder("explain-session");
    let explain = |number| common::run(&folder, &["explain", number]).1;
    let (name, shelf) = (explain("20"), explain("21"));
    assert_eq!(name, "20 no name: no state is kept under that name\nfrom qonveshir session\n");
    assert!(shelf.ends_with("the name is a ninth\nfrom qonveshir session\n"), "{shelf}");
    fs::remove_dir_all(folder).unwrap();
}
