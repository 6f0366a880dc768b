//! Games: `play`, its first moves and its plans.

mod common;

use common::{folder, run, SYMBOLS};
use std::fs;
use std::path::{Path, PathBuf};

/// A folder with the texts of a game: the loader's moves, the sender's, the goal and the start.
fn game(name: &str, texts: [&str; 4]) -> PathBuf {
    let folder = folder(name);
    fs::write(folder.join("symbols.txt"), SYMBOLS).unwrap();
    for (file, text) in ["loader.txt", "sender.txt", "goal.txt", "start.txt"].iter().zip(texts) {
        fs::write(folder.join(file), text).unwrap();
    }
    folder
}

/// Status and output of `play` in a folder with these words after it.
fn play(folder: &Path, words: &str) -> (i32, String) {
    run(folder, &[&["play", "."], &words.split(' ').collect::<Vec<_>>()[..]].concat())
}

const OPENS: &str = "mend: gates(@0, shut, @1) => gates(@0, open, @1)\n";
const SHUTS: &str = "gates(@0, open, @1) => gates(@0, shut, @1)";
const ALL_OPEN: &str = "!gates(@0, !open, @1)";

#[test]
fn says_what_the_loader_begins_with() {
    let forced = |text: &str| (0, format!("forced: {text}"));
    let none = || (1, "none\n".to_string());
    for (i, (texts, turns, expected)) in [
        // No move, one, and a goal that the other's move brings about.
        ([OPENS, "", ALL_OPEN, "gates(open)"], 0, forced("no move is needed\n")),
        ([OPENS, "", ALL_OPEN, "gates(open)"], 6, forced("no move is needed\n")),
        ([OPENS, "", ALL_OPEN, "gates(shut)"], 0, none()),
        (
            [OPENS, "", ALL_OPEN, "gates(shut)"],
            1,
            forced("the loader's move is mend\ngates(open)\n"),
        ),
        ([OPENS, "", "gates(@0, held, @1)", "gates(shut)"], 6, none()),
        (["", OPENS, ALL_OPEN, "gates(shut)"], 1, none()),
        (["", OPENS, ALL_OPEN, "gates(shut)"], 2, forced("the loader passes\n")),
        // A pass is a turn.
        ([OPENS, "", ALL_OPEN, "gates(shut, shut)"], 2, none()),
        (
            [OPENS, "", ALL_OPEN, "gates(shut, shut)"],
            3,
            forced("the loader's move is mend\ngates(open, shut)\n"),
        ),
        // The sender undoes it.
        ([OPENS, SHUTS, ALL_OPEN, "gates(shut, shut)"], 6, none()),
        // The first that still forces it, and its notation where it has no name.
        (
            [
                "?0 => held\ngates(?0) => gates(?0, ?0)\n?0 => gates(open)\n",
                "",
                ALL_OPEN,
                "gates(open, shut)",
            ],
            1,
            forced("the loader's move is ?0=>held\nheld\n"),
        ),
        (
            ["?0 => held\n?0 => gates(open)\n", "", "gates(open)", "gates(shut)"],
            1,
            forced("the loader's move is ?0=>gates(open)\ngates(open)\n"),
        ),
    ]
    .into_iter()
    .enumerate()
    {
        let folder = game(&format!("play-{i}"), texts);
        assert_eq!(play(&folder, &format!("--turns {turns}")), expected, "{texts:?}");
        fs::remove_dir_all(folder).unwrap();
    }
}

#[test]
fn shows_the_plan() {
    let loader = format!("{OPENS}turn: gates(?0, @0) => gates(@0, ?0)\n");
    let sender = "hold: gates(?0, @0, open) => gates(?0, @0, held)\n";
    let folder = game("plan", [&loader, sender, "gates(held, @0)", "gates(shut, open)"]);
    let plan = "\
forced: the loader's move is mend
start: gates(shut, open)
  loader mend: gates(open, open)
    sender hold: gates(open, held)
      loader turn: gates(held, open)  (goal)
";
    assert_eq!(play(&folder, "--turns 3 --plan"), (0, plan.into()));
    // With a second answer the sender hinders it.
    fs::write(folder.join("sender.txt"), format!("{sender}{SHUTS}\n")).unwrap();
    assert_eq!(play(&folder, "--turns 3 --plan"), (1, "none\n".into()));
    // Two answers of the sender, a pass of the loader, and nothing past the goal.
    for (file, text) in [
        ("loader.txt", "mend: gates(@0, shut, @1) => gates(@0, open, @1)\n"),
        (
            "sender.txt",
            "a: gates(open, @0) => gates(@0)\nb: gates(open, shut, @0) => gates(shut, @0)\n",
        ),
        ("goal.txt", "gates()"),
        ("start.txt", "gates(shut)"),
    ] {
        fs::write(folder.join(file), text).unwrap();
    }
    let plan = "\
forced: the loader's move is mend
start: gates(shut)
  loader mend: gates(open)
    sender a: gates()  (goal)
";
    assert_eq!(play(&folder, "--turns 6 --plan"), (0, plan.into()));
    fs::write(folder.join("start.txt"), "gates(open)").unwrap();
    let plan = "\
forced: the loader passes
start: gates(open)
  loader passes: gates(open)
    sender a: gates()  (goal)
";
    assert_eq!(play(&folder, "--plan --turns 2"), (0, plan.into()));
    fs::write(folder.join("start.txt"), "gates(shut, shut)").unwrap();
    let plan = "\
forced: the loader's move is mend
start: gates(shut, shut)
  loader mend: gates(open, shut)
    sender a: gates(shut)
      loader mend: gates(open)
        sender a: gates()  (goal)
    sender b: gates(shut)
      loader mend: gates(open)
        sender a: gates()  (goal)
";
    assert_eq!(play(&folder, "--turns 4 --plan"), (0, plan.into()));
    fs::remove_dir_all(folder).unwrap();
}

#[test]
fn a_plan_has_passes_of_the_sender() {
    let folder = game("passes", [OPENS, "held => open", ALL_OPEN, "gates(shut, shut)"]);
    let plan = "\
forced: the loader's move is mend
start: gates(shut, shut)
  loader mend: gates(open, shut)
    sender passes: gates(open, shut)
      loader mend: gates(open, open)  (goal)
";
    assert_eq!(play(&folder, "--turns 3 --plan"), (0, plan.into()));
    fs::remove_dir_all(folder).unwrap();
}

#[test]
fn outgrown_results_are_no_moves() {
    let row = format!("gates({})", vec!["open"; 200].join(", "));
    let doubles = "gates(@0) => gates(@0, @0)";
    let folder = game("grown", [doubles, "?0 => held", "held", &row]);
    assert_eq!(play(&folder, "--turns 2"), (0, "forced: the loader passes\n".into()));
    fs::remove_dir_all(folder).unwrap();
}

#[test]
fn allowances_turns_and_starts() {
    let folder = game("options", [OPENS, "", ALL_OPEN, "gates(shut)"]);
    fs::write(folder.join("states.txt"), "done: gates(open)\nfar: gates(shut, shut)\n").unwrap();
    let mend = (0, "forced: the loader's move is mend\ngates(open)\n".to_string());
    // The goal counts 6 on gates(shut): !, gates, @0, !, open inside, @1.
    assert_eq!(play(&folder, "--turns 1 --allowance 5"), (1, "spent 5\n".into()));
    assert_eq!(play(&folder, "--turns 1 --allowance 9"), mend);
    assert_eq!(play(&folder, "--start done --turns 1").1, "forced: no move is needed\n");
    assert_eq!(play(&folder, "--start far --turns 2"), (1, "none\n".into()));
    let turns = "the game: refused 24 turns: more than 6 turns\n";
    assert_eq!(play(&folder, "--turns 7"), (1, turns.into()));
    let explained = "24 turns: more than 6 turns\nfrom qonveshir play\n";
    assert_eq!(run(&folder, &["explain", "24"]), (0, explained.into()));
    let told = |text: &str| (2, format!("qonveshir: {text}\n"));
    assert_eq!(play(&folder, "--turns six"), told("--turns six: expected 0 to 6"));
    let none = "./states.txt: no state is named near";
    assert_eq!(play(&folder, "--turns 1 --start near"), told(none));
    let wrong = told("a wrong call; see qonveshir play --help");
    for words in ["--plan", "--turns", "--turns 1 .", "--turns 1 --names", "--turns 1 --start"] {
        assert_eq!(play(&folder, words), wrong, "{words}");
    }
    assert_eq!(run(&folder, &["play", "--turns", "1"]), wrong);
    fs::remove_dir_all(folder).unwrap();
}

#[test]
fn says_which_text_is_wrong() {
    let texts = [OPENS, SHUTS, "gates(@0)", "gates(shut)"];
    let folder = game("wrong-game", texts);
    let with = |file: &str, text: &str, words: &str| {
        let path = folder.join(file);
        let before = fs::read_to_string(&path).unwrap();
        fs::write(&path, text).unwrap();
        let played = play(&folder, words);
        fs::write(&path, before).unwrap();
        played
    };
    for (file, text, told) in [
        ("goal.txt", "", "expected one rule, this has 0"),
        ("goal.txt", "?0\n?1\n", "expected one rule, this has 2"),
        ("start.txt", "open\nshut\n", "expected one state, this has 2"),
        ("start.txt", "closed", "line 1, column 1: closed is not in the table"),
        ("sender.txt", "open", "line 1, column 5: expected => and a template"),
    ] {
        let line = format!("qonveshir: ./{file}: {told}\n");
        assert_eq!(with(file, text, "--turns 1"), (2, line));
    }
    let loose = "./loader.txt: refused 18 loose, line 1, column 16: ?1 is not free in the rule\n";
    assert_eq!(with("loader.txt", "row(?0, ?0) => ?1", "--turns 1"), (1, loose.into()));
    for (file, text, place) in [
        ("loader.txt", "?0 => gates(gates())", "line 1, column 13"),
        ("sender.txt", "gates(gates()) => open", "line 1, column 7"),
        ("goal.txt", "gates(gates())", "line 1, column 7"),
        ("start.txt", "\ngates(gates())", "line 2, column 7"),
    ] {
        assert_ne!(with(file, text, "--turns 1").0, 2);
        let (status, shown) = with(file, text, "--edition 2 --turns 1");
        assert_eq!(status, 1);
        assert!(
            shown.starts_with(&format!("./{file}: refused 16 unspliced, {place}: ")),
            "{shown}"
        );
    }
    fs::remove_file(folder.join("start.txt")).unwrap();
    assert_eq!(play(&folder, "--turns 1").0, 2);
    fs::remove_dir_all(folder).unwrap();
}

#[test]
fn up_to_class_and_in_edition_2() {
    let loader = "row(?0, ?1) => gates(?0, ?1)";
    let folder = game("play-2", [loader, "", "gates(open, stopped)", "row(gates(open), held)"]);
    fs::write(folder.join("symbols.txt"), format!("{SYMBOLS} stopped=held")).unwrap();
    assert_eq!(play(&folder, "--turns 1"), (1, "none\n".into()));
    let shown =
        format!("forced: the loader's move is {}\ngates(open, held)\n", loader.replace(' ', ""));
    assert_eq!(play(&folder, "--edition 2 --turns 1"), (0, shown));
    fs::remove_dir_all(folder).unwrap();
}
