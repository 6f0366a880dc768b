//! The commands, their output and their exit status.

mod common;

use common::{folder, run, SYMBOLS};
use std::fs;
use std::io::Read;
use std::process::{Command, Stdio};

#[test]
fn matches() {
    let folder = folder("match");
    let find = |rule, state| run(&folder, &["match", "symbols", rule, state]);
    let bound = "bound 10\n@0 = open  (offset 2, length 1, terms 1)\n\
                 @1 = nothing  (offset 4, length 0, terms 0)\n";
    assert_eq!(find("gates(@0, !open, @1)", "gates(open, shut)"), (0, bound.into()));
    let bound = "bound 4\n@0 = gate(shut), open  (offset 2, length 3, terms 2)\n";
    assert_eq!(find("gates(@0)", "gates(gate(shut), open)").1, bound);
    assert_eq!(find("row(!?0, ?0)", "row(open, open)"), (1, "none 4\n".into()));
    let (status, text) = find("row(!?0)", "open");
    assert_eq!(
        (status, text.as_str()),
        (2, "qonveshir: rule, column 8: row takes 2 children, this is 1\n")
    );
    let spent =
        run(&folder, &["match", "--allowance", "3", "symbols", "row(?0, !?1)", "row(open, open)"]);
    assert_eq!(spent, (1, "spent 3\n".into()));
    fs::remove_dir_all(folder).unwrap();
}

#[test]
fn lists_every_answer() {
    let folder = folder("all");
    let all = |options: &[&str], rule, state| {
        run(&folder, &[&["match", "--all"][..], options, &["symbols", rule, state]].concat())
    };
    let first = "bound 5\n@0 = nothing  (offset 2, length 0, terms 0)\n\
                 @1 = open, shut  (offset 2, length 2, terms 2)\n";
    let second = "bound 6\n@0 = open  (offset 2, length 1, terms 1)\n\
                  @1 = shut  (offset 3, length 1, terms 1)\n";
    let third = "bound 5\n@0 = open, shut  (offset 2, length 2, terms 2)\n\
                 @1 = nothing  (offset 4, length 0, terms 0)\n";
    let (rule, state) = ("gates(@0, @1)", "gates(open, shut)");
    let listed = format!("{first}{second}{third}answers: 3, sum of counts: 19\n");
    assert_eq!(all(&[], rule, state), (0, listed));
    assert_eq!(all(&["--allowance", "5"], rule, state), (1, format!("{first}spent 5\n")));
    assert_eq!(all(&["--allowance", "4"], rule, state), (1, "spent 4\n".into()));
    assert_eq!(
        all(&[], "gates(@0, held)", state),
        run(&folder, &["match", "symbols", "gates(@0, held)", state])
    );
    let one = "bound 2\nanswers: 1, sum of counts: 4\n";
    assert_eq!(all(&[], "!shut", "open"), (0, one.into()));
    fs::remove_dir_all(folder).unwrap();
}

#[test]
fn prints_each_answer_when_it_is_found() {
    let folder = folder("pipe");
    let state = format!("gates({}shut)", "open, ".repeat(200));
    let rule = "gates(@0, @1, @2, @3, @4, @5, @6, @7)";
    let mut command = Command::new(env!("CARGO_BIN_EXE_qonveshir"))
        .args(["match", "--all", "symbols", rule, &state])
        .current_dir(&folder)
        .stdout(Stdio::piped())
        .spawn()
        .unwrap();
    let mut first = [0; 10];
    // Far more answers than can be listed: who reads the first and goes ends the command.
    command.stdout.take().unwrap().read_exact(&mut first).unwrap();
    assert_eq!(&first, b"bound 210\n");
    assert_eq!(command.wait().unwrap().code(), Some(0));
    fs::remove_dir_all(folder).unwrap();
}

#[test]
fn options_of_a_match() {
    let folder = folder("options");
    let rest = ["symbols", "gates(@0, @1)", "gates(open)"];
    let find = |options: &[&str]| run(&folder, &[&["match"], options, &rest].concat());
    let bound = find(&["--all"]);
    assert!(bound.1.ends_with("answers: 2, sum of counts: 12\n"), "{}", bound.1);
    assert_eq!(find(&["--all", "--allowance", "5"]), bound);
    assert_eq!(find(&["--allowance", "5", "--all"]), bound);
    let number = "qonveshir: --allowance -1: expected 0 to 4294967295\n";
    assert_eq!(find(&["--all", "--allowance", "-1"]), (2, number.into()));
    let wrong = (2, "qonveshir: a wrong call; see qonveshir match --help\n".into());
    for options in [&["--al"][..], &["--all", "more"], &["--all", "--all", "more"]] {
        assert_eq!(find(options), wrong, "{options:?}");
    }
    assert_eq!(run(&folder, &["match", "--all", "symbols", "open"]), wrong);
    assert_eq!(run(&folder, &["match", "--all"]), wrong);
    fs::remove_dir_all(folder).unwrap();
}

#[test]
fn matches_by_the_plain_tier() {
    let folder = folder("plain");
    fs::write(folder.join("classes"), "open held gates/* stopped=held").unwrap();
    let find = |rule, state| run(&folder, &["match", "--plain", "classes", rule, state]);
    let bound = "bound 3\n@0 = open, held  (offset 2, length 2, terms 2)\n";
    assert_eq!(find("gates(@0, held)", "gates(open, held, stopped)"), (0, bound.into()));
    assert_eq!(find("gates(@0, held)", "gates()"), (1, "none 1\n".into()));
    assert_eq!(find("gates(@0, held)", "gates(held, open)"), (1, "none 3\n".into()));
    for rule in ["!held", "gates(?0, ?0)", "gates(@0, @1)"] {
        assert_eq!(find(rule, "open"), (1, "refused 23\n".into()), "{rule}");
    }
    let (status, text) = run(&folder, &["explain", "23"]);
    assert_eq!((status, &text[..12]), (0, "23 not plain"));
    let wrong = (2, "qonveshir: a wrong call; see qonveshir match --help\n".into());
    assert_eq!(run(&folder, &["match", "--plain", "--all", "classes", "open", "open"]), wrong);
    fs::remove_dir_all(folder).unwrap();
}

#[test]
fn matches_up_to_class() {
    let folder = folder("classes");
    let text = "open held gate/1 row/2 gates/* stopped=held door=gate";
    fs::write(folder.join("classes"), text).unwrap();
    fs::write(folder.join("plain"), "open held gate/1 row/2 gates/* stopped door/1").unwrap();
    let find = |symbols, rule, state| run(&folder, &["match", symbols, rule, state]);
    let (rule, state) = ("row(?0, ?0)", "row(gate(stopped), door(held))");
    let bound = "bound 3\n?0 = gate(stopped)  (offset 1, length 2)\n";
    assert_eq!(find("classes", rule, state), (0, bound.into()));
    assert_eq!(find("plain", rule, state), (1, "none 3\n".into()));
    assert_eq!(find("classes", "row(!held, ?0)", "row(stopped, open)"), (1, "none 4\n".into()));
    let all = |symbols| {
        let (rule, state) = ("gates(@0, held, @1)", "gates(held, stopped)");
        run(&folder, &["match", "--all", symbols, rule, state]).1.lines().last().unwrap().to_owned()
    };
    assert_eq!(all("classes"), "answers: 2, sum of counts: 17");
    assert_eq!(all("plain"), "answers: 1, sum of counts: 12");
    let command = |text: &str| run(&folder, &text.split(' ').collect::<Vec<_>>());
    assert_eq!(command("pack classes classes c"), (0, "c: 7 bytes\n".into()));
    assert_eq!(fs::read(folder.join("c")).unwrap(), [0, 1, 2, 3, 4, 1, 2]);
    assert_eq!(command("unpack classes plain c"), (0, format!("{text}\n")));
    fs::write(folder.join("c"), [0, 1, 2]).unwrap();
    let expected = "c: refused 14 class, byte 3: a list for 7 symbols, this has 3 bytes\n";
    assert_eq!(command("unpack classes plain c"), (1, expected.into()));
    fs::remove_dir_all(folder).unwrap();
}

#[test]
fn packs_and_unpacks() {
    let folder = folder("pack");
    let rules = "row(!?0, ?0)\nrow(open, !shut)\n";
    fs::write(folder.join("rules"), format!("# two rules\n\n{rules}")).unwrap();
    fs::write(folder.join("states"), "row(open, open) # both\nheld\n").unwrap();
    let command = |text: &str| run(&folder, &text.split(' ').collect::<Vec<_>>());
    assert_eq!(command("pack table symbols t"), (0, "t: 6 bytes\n".into()));
    assert_eq!(command("pack rules symbols rules r"), (0, "r: 18 bytes\n".into()));
    assert_eq!(command("pack states symbols states s"), (0, "s: 14 bytes\n".into()));
    assert_eq!(command("unpack rules symbols r"), (0, rules.into()));
    assert_eq!(command("unpack states symbols s"), (0, "row(open, open)\nheld\n".into()));
    let (status, text) = command("unpack states symbols r");
    assert_eq!(status, 1);
    assert!(text.starts_with("r: refused 4 code, entry 0"), "{text}");
    let (status, text) = command("explain t --rules r --states s");
    assert_eq!((status, text.lines().count()), (0, 3));
    fs::remove_dir_all(folder).unwrap();
}

#[test]
fn shows_what_rules_cost() {
    let folder = folder("cost");
    let rules = ["row(!?0, ?0)", "gates(@0, !open)", "!!gates(gates(), !gate(?1))", "!gates(@0)"];
    let rules = [&rules[..], &["row(?0, open)", "gates(@0, open)", "gates(@0, @1)"]].concat();
    fs::write(folder.join("rules"), rules.join("\n")).unwrap();
    let command = |text: &str| run(&folder, &text.split(' ').collect::<Vec<_>>());
    assert_eq!(command("pack rules symbols rules r"), (0, "r: 63 bytes\n".into()));
    let costs = ["at most 4", "no bound", "at most 7", "no bound"];
    let costs = [&costs[..], &["at most 3, plain", "no bound, plain", "no bound"]].concat();
    let lines = costs.iter().zip(rules).map(|(cost, rule)| format!("{cost}: {rule}\n"));
    assert_eq!(command("cost symbols r"), (0, lines.collect()));
    fs::write(folder.join("r"), [1, 0, 6, 0, 1, 0, 232]).unwrap();
    let (status, text) = command("cost symbols r");
    assert_eq!(status, 1);
    assert!(text.starts_with("r: refused 7 stray, entry 0"), "{text}");
    fs::remove_dir_all(folder).unwrap();
}

#[test]
fn packs_rows_of_complements() {
    let folder = folder("complements");
    let rules = ["!".repeat(255) + "?0", "!".repeat(40) + "row(gate(open), !shut)"].join("\n");
    fs::write(folder.join("rules"), &rules).unwrap();
    let command = |text: &str| run(&folder, &text.split(' ').collect::<Vec<_>>());
    assert_eq!(command("pack rules symbols rules r"), (0, "r: 311 bytes\n".into()));
    assert_eq!(command("unpack rules symbols r"), (0, rules + "\n"));
    let find = |rule: String| command(&format!("match symbols {rule} open"));
    assert_eq!(find("!".repeat(254) + "?0"), (0, "bound 255\n".into()));
    assert_eq!(find("!".repeat(255) + "?0"), (1, "none 256\n".into()));
    fs::write(folder.join("t"), [0, 1]).unwrap();
    fs::write(folder.join("p"), [[248, 1].repeat(32), vec![248, 0]].concat()).unwrap();
    let deep = "p: refused 5 deep\ninput: pattern\nbyte: 64, which is 248\n\
                expected: nesting of at most 32, complements not counted\n";
    assert_eq!(command("explain t --pattern p"), (1, deep.into()));
    fs::remove_dir_all(folder).unwrap();
}

#[test]
fn explains() {
    let folder = folder("explain");
    fs::write(folder.join("t"), [0, 1, 255]).unwrap();
    fs::write(folder.join("r"), [2, 0, 10, 0, 1, 0, 11, 0, 2, 0, 0, 1, 250]).unwrap();
    let expected = "\
        r: refused 4 code\n\
        input: rules, entry 1\n\
        byte: 12, byte 1 of the entry, which is 250\n\
        expected: a symbol from 0 to 2, a name 200 to 231, a run name 232 to 247 or the \
        complement 248\n";
    assert_eq!(run(&folder, &["explain", "t", "--rules", "r"]), (1, expected.into()));
    fs::write(folder.join("s"), [1, 0, 6, 0, 2, 0, 0]).unwrap();
    let expected = "\
        s: refused 9 directory\ninput: states\nbyte: 4, which is 2\n\
        expected: a length over 0 that stays within the sheet\n";
    assert_eq!(run(&folder, &["explain", "t", "--states", "s"]), (1, expected.into()));
    fs::write(folder.join("p"), [2]).unwrap();
    let expected = "\
        p: refused 2 short\ninput: record\nbyte: 1, past the end\n\
        expected: a further node, or a list's number of children\n";
    assert_eq!(run(&folder, &["explain", "t", "--record", "p"]), (1, expected.into()));
    let stray = "7 stray: run name elsewhere than as a list's child\n";
    assert_eq!(run(&folder, &["explain", "7"]), (0, stray.into()));
    let class = "14 class: a class list of the wrong length, an entry above its own index or not \
                 its own class, or unlike table bytes within a class\n";
    assert_eq!(run(&folder, &["explain", "14"]), (0, class.into()));
    let unknown =
        "15 unknown: the given run lengths are not one for each free run name, or belong \
                   to no answer\n";
    assert_eq!(run(&folder, &["explain", "15"]), (0, unknown.into()));
    fs::remove_dir_all(folder).unwrap();
}

#[test]
fn explains_codes() {
    let folder = folder("codes");
    for (code, kind) in [
        (0, "symbol"),
        (199, "symbol"),
        (200, "name"),
        (231, "name"),
        (232, "run"),
        (247, "run"),
        (248, "complement"),
        (249, "refused"),
        (255, "refused"),
    ] {
        let line = format!("{code} {kind}\n");
        assert_eq!(run(&folder, &["explain", "--code", &code.to_string()]), (0, line));
    }
    for wrong in ["256", "-1", "name"] {
        assert_eq!(run(&folder, &["explain", "--code", wrong]).0, 2, "{wrong}");
    }
    fs::remove_dir_all(folder).unwrap();
}

#[test]
fn explains_class_lists() {
    let folder = folder("lists");
    fs::write(folder.join("t"), [0, 1, 255, 0]).unwrap();
    let explain = |list: &[u8]| {
        fs::write(folder.join("c"), list).unwrap();
        run(&folder, &["explain", "t", "--classes", "c"])
    };
    let accepted = "t: accepted as table\nc: accepted as classes\n";
    assert_eq!(explain(&[0, 1, 2, 0]), (0, accepted.into()));
    let long = "a list as long as the table, which has 4 bytes";
    for (list, byte, expected) in [
        (&[][..], "0, past the end", long),
        (&[0, 1, 2], "3, past the end", long),
        (&[0, 1, 2, 3, 4], "4, which is 4", long),
        (&[0, 1, 3, 3], "2, which is 3", "at most its own index, which is 2"),
        (&[0, 0, 2, 1], "1, which is 0", "a symbol with the table's byte 1"),
        (&[0, 1, 255, 0], "2, which is 255", "at most its own index, which is 2"),
    ] {
        let text =
            format!("c: refused 14 class\ninput: classes\nbyte: {byte}\nexpected: {expected}\n");
        assert_eq!(explain(list), (1, text), "{list:?}");
    }
    fs::write(folder.join("t"), [0, 0, 0]).unwrap();
    let (status, text) = explain(&[0, 0, 1]);
    assert_eq!(status, 1);
    assert!(text.ends_with("expected: its own class; 1 has the class 0\n"), "{text}");
    fs::remove_dir_all(folder).unwrap();
}

#[test]
fn stores_and_restores() {
    let folder = folder("store");
    let command = |text: &str| run(&folder, &text.split(' ').collect::<Vec<_>>());
    fs::write(folder.join("old"), [5, 2, 5, 1, 0, 1]).unwrap();
    assert_eq!(command("store record symbols old new"), (0, "new: 10 bytes\n".into()));
    assert_eq!(fs::read(folder.join("new")).unwrap(), [5, 2, 6, 0, 5, 1, 1, 0, 0, 1]);
    assert_eq!(command("restore record symbols new back"), (0, "back: 6 bytes\n".into()));
    assert_eq!(fs::read(folder.join("back")).unwrap(), [5, 2, 5, 1, 0, 1]);
    fs::write(folder.join("new"), [5, 1, 2, 0, 0]).unwrap();
    let wrong = "new: refused 17 length: a stored list tells another length than that of its \
                 children\n";
    assert_eq!(command("restore record symbols new back"), (1, wrong.into()));
    fs::write(folder.join("t"), [0, 0, 0, 1, 2, 255]).unwrap();
    let told = "t: accepted as table\n";
    let (status, text) = command("explain t --stored new");
    assert_eq!(status, 1, "{text}");
    assert!(text.contains("byte: 2, which is 2\n") && !text.contains(told), "{text}");
    assert_eq!(command("restore record symbols old back").0, 1);
    fs::remove_dir_all(folder).unwrap();
}

#[test]
fn stores_the_states_of_a_sheet() {
    let folder = folder("states");
    let command = |text: &str| run(&folder, &text.split(' ').collect::<Vec<_>>());
    fs::write(folder.join("text"), "gates(open, shut)\nheld\ngate(gates())\n").unwrap();
    assert_eq!(command("pack states symbols text sheet").0, 0);
    assert_eq!(command("store states symbols sheet lines"), (0, "lines: 27 bytes\n".into()));
    let lines = "050202000001\n02\n0305000000\n";
    assert_eq!(fs::read_to_string(folder.join("lines")).unwrap(), lines);
    assert_eq!(command("restore states symbols lines back").0, 0);
    assert_eq!(fs::read(folder.join("back")).unwrap(), fs::read(folder.join("sheet")).unwrap());
    fs::write(folder.join("lines"), "02\n0500\n").unwrap();
    let (status, text) = command("restore states symbols lines back");
    assert_eq!((status, text.starts_with("lines: line 2: refused 2 short")), (1, true), "{text}");
    for wrong in ["0", "0G", "+5"] {
        fs::write(folder.join("lines"), wrong).unwrap();
        assert_eq!(command("restore states symbols lines back").0, 2, "{wrong}");
    }
    fs::remove_dir_all(folder).unwrap();
}

/// What a number meant before there were examples, stations and games stands in a line of its own.
#[test]
fn later_calls_add_a_line_to_what_a_number_means() {
    let folder = folder("numbers");
    let long =
        "6 long: pattern, record, stored record or sheet over its limit, over 64 rules; an old \
                form over a record's limit; a spliced list over 255 elements";
    let directory =
        "9 directory: a sheet breaks its rules, no such entry, or an edition neither 1 nor 2";
    let none =
        "10 none: no assignment satisfies the pattern, or none after the given answer; of a \
                cost, no bound";
    for (number, line) in [
        ("0", "0 bound: bound, written, accepted or bounded"),
        ("6", long),
        ("9", directory),
        ("10", none),
        ("12", "12 full: output too short for what is to be written"),
    ] {
        let (status, text) = run(&folder, &["explain", number]);
        let lines: Vec<&str> = text.lines().collect();
        assert_eq!((status, lines[0], lines.len()), (0, line, 2));
        assert!(lines[1].starts_with("also: "), "{text}");
    }
    fs::remove_dir_all(folder).unwrap();
}

#[test]
fn wrong_calls() {
    let folder = folder("calls");
    assert_eq!(run(&folder, &[]).0, 2);
    assert_eq!(run(&folder, &["match", "nowhere", "open", "open"]).0, 2);
    assert_eq!(run(&folder, &["explain", "25"]).0, 2);
    assert_eq!(run(&folder, &["--help"]).0, 0);
    assert!(run(&folder, &["--version"]).1.starts_with("qonveshir 0."));
    let unknown = "qonveshir: mach: no such command; see qonveshir --help\n";
    assert_eq!(run(&folder, &["mach"]), (2, unknown.into()));
    for name in command_line::COMMANDS.iter().map(|command| command.name) {
        let wrong = format!("qonveshir: a wrong call; see qonveshir {name} --help\n");
        assert_eq!(run(&folder, &[name]), (2, wrong), "{name}");
        let (status, help) = run(&folder, &[name, "--help"]);
        assert_eq!(status, 0, "{name}");
        assert!(help.starts_with(&format!("usage:\n  qonveshir {name} ")), "{help}");
        assert_eq!(run(&folder, &[name, "symbols", "-h"]), (0, help), "{name}");
    }
    fs::remove_dir_all(folder).unwrap();
}

#[test]
fn help_fits_a_page() {
    let folder = folder("help");
    let (_, help) = run(&folder, &["--help"]);
    for command in command_line::COMMANDS {
        for (call, _) in command.usage {
            assert!(help.contains(&format!("  qonveshir {call}")), "{call}");
        }
        let (_, own) = run(&folder, &[command.name, "--help"]);
        assert!(own.contains(command.help));
        assert!(own.lines().chain(help.lines()).all(|line| line.len() <= 80), "{own}");
    }
    fs::remove_dir_all(folder).unwrap();
}

#[test]
fn symbols_from_a_file_or_in_place() {
    let folder = folder("in-place");
    let find = |symbols| run(&folder, &["match", symbols, "row(!?0, ?0)", "row(open, shut)"]);
    let bound = (0, "bound 4\n?0 = shut  (offset 2, length 1)\n".to_string());
    assert_eq!(find("symbols"), bound);
    assert_eq!(find(SYMBOLS), bound);
    fs::write(folder.join("two words"), SYMBOLS).unwrap();
    assert_eq!(find("two words"), bound);
    let (status, text) = find("nowhere");
    assert_eq!(status, 2);
    assert!(text.starts_with("qonveshir: nowhere: "), "{text}");
    let wrong = "qonveshir: symbols, column 6: expected 0 to 8 children or *, found \"9\"\n";
    assert_eq!(find("open gate/9"), (2, wrong.into()));
    fs::remove_dir_all(folder).unwrap();
}

#[test]
fn marks_where_the_parts_stand() {
    let folder = folder("marks");
    let find = |rule, state| run(&folder, &["match", "--marks", SYMBOLS, rule, state]).1;
    let shown = "\
bound 17
    gates(open, gate(shut), held, gate(shut))
?0              ^^^^^^^^^^
@0        ^^^^
@1                          ^^^^
@2                                         |
?0 = gate(shut)  (offset 3, length 2)
@0 = open  (offset 2, length 1, terms 1)
@1 = held  (offset 5, length 1, terms 1)
@2 = nothing  (offset 8, length 0, terms 0)
";
    let state = "gates(open, gate(shut), held, gate(shut))";
    assert_eq!(find("gates(@0, ?0, @1, ?0, @2)", state), shown);
    assert_eq!(find("gates(@0)", "gates()").lines().nth(2), Some("@0        |"));
    assert_eq!(find("!shut", "open"), "bound 2\n");
    fs::remove_dir_all(folder).unwrap();
}

#[test]
fn arguments_that_are_no_text() {
    use std::os::unix::ffi::OsStrExt;
    let folder = folder("bytes");
    let argument = std::ffi::OsStr::from_bytes(b"open \xff");
    let mut program = common::program(&folder, &["match"]);
    let output = program.arg(argument).output().unwrap();
    assert_eq!(output.status.code(), Some(2));
    let told = "qonveshir: \"open \\xFF\": not text in UTF-8\n";
    assert_eq!(String::from_utf8(output.stderr).unwrap(), told);
    fs::remove_dir_all(folder).unwrap();
}
