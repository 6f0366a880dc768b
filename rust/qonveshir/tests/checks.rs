//! `check` and `report` on folders, right and wrong.

mod common;

use common::{folder, run, SYMBOLS};
use std::fs;
use std::path::Path;

const TABLE: [u8; 6] = [0, 0, 0, 1, 2, 255];
const RULES: &[u8] = &[1, 0, 6, 0, 4, 0, 4, 248, 200, 200];
const STATES: &[u8] = &[1, 0, 6, 0, 3, 0, 4, 0, 1];

/// Writes the files of a report, those that are given.
fn put(folder: &Path, files: [Option<&[u8]>; 3]) {
    for (name, bytes) in ["table.bin", "rules.bin", "states.bin"].into_iter().zip(files) {
        let _ = fs::remove_file(folder.join(name));
        if let Some(bytes) = bytes {
            fs::write(folder.join(name), bytes).unwrap();
        }
    }
}

#[test]
fn each_refusal_in_words() {
    let folder = folder("check");
    let check = |files| {
        put(&folder, files);
        run(&folder, &["check", "."])
    };
    let (table, rules, states) = (Some(&TABLE[..]), Some(RULES), Some(STATES));
    let accepted = "./table.bin: accepted, symbols: 6\n./rules.bin: accepted, rules: 1\n\
                    ./states.bin: accepted, states: 1\n";
    assert_eq!(check([table, rules, states]), (0, accepted.into()));
    let not_checked = "./rules.bin: not checked, since there is no accepted table\n\
                       ./states.bin: not checked, since there is no accepted table\n";
    let expected = format!(
        "./table.bin: refused 1 table\ninput: table\nbyte: 1, which is 9\n\
         expected: 0 to 8 children, or 255 for a list\n{not_checked}the report: refused 1 table 0\n"
    );
    assert_eq!(check([Some(&[0, 9]), rules, states]), (1, expected));
    let (status, text) = check([None, rules, states]);
    assert_eq!(status, 1);
    assert!(text.starts_with("./table.bin: refused 13 unread\nNo such file"), "{text}");
    assert!(text.ends_with(&format!("{not_checked}the report: refused 13 table 0\n")), "{text}");
    // A fault of the rules and one of the states, each at its entry and byte.
    let faulty_rules = [2, 0, 10, 0, 1, 0, 11, 0, 2, 0, 0, 248, 232];
    let faulty_states = [1, 0, 6, 0, 2, 0, 0, 0];
    let expected = "./table.bin: accepted, symbols: 6\n\
        ./rules.bin: refused 7 stray\ninput: rules, entry 1\n\
        byte: 12, byte 1 of the entry, which is 232\n\
        expected: a run name only as a direct child of a list\n\
        ./states.bin: refused 3 spare\ninput: states, entry 0\n\
        byte: 7, byte 1 of the entry, which is 0\n\
        expected: the end, since the last node ends before\n\
        the report: refused 7 rules 1\n";
    let found = check([table, Some(&faulty_rules), Some(&faulty_states)]);
    assert_eq!(found, (1, expected.into()));
    assert_eq!(run(&folder, &["report", "."]), (1, "refused 7 rules 1\n".into()));
    fs::remove_dir_all(folder).unwrap();
}

#[test]
fn files_over_their_limit() {
    let folder = folder("limits");
    let huge = vec![0; 40_000];
    for (place, line) in [(0, "1 table 0"), (1, "6 rules 0"), (2, "6 states 0")] {
        let mut files = [Some(&TABLE[..]), Some(RULES), Some(STATES)];
        files[place] = Some(&huge);
        put(&folder, files);
        assert_eq!(run(&folder, &["report", "."]), (1, format!("refused {line}\n")));
        let (status, text) = run(&folder, &["check", "."]);
        assert_eq!(status, 1);
        assert!(text.ends_with(&format!("the report: refused {line}\n")), "{text}");
    }
    fs::remove_dir_all(folder).unwrap();
}

#[test]
fn names_of_rules_and_states() {
    let folder = folder("names");
    let text = |name: &str, text: &str| fs::write(folder.join(name), text).unwrap();
    text("symbols.txt", SYMBOLS);
    text("rules.txt", "row(!?0, ?0)\nother: row(?0, ?1)\n");
    text(
        "states.txt",
        "first: row(open, shut)\nrow(open, gate(open))\nlast: held\nrow(held, held)",
    );
    assert_eq!(run(&folder, &["pack", "folder", "."]).0, 0);
    let named = || run(&folder, &["report", "--names", "."]);
    let report = "state rule word count\nfirst row(!?0,?0) bound 4\n\
                  row(open,gate(open)) row(!?0,?0) bound 4\nlast - none 2\n\
                  row(held,held) other bound 7\n";
    assert_eq!(named(), (0, report.into()));
    fs::remove_file(folder.join("states.txt")).unwrap();
    let unnamed = report.replace("first", "row(open,shut)").replace("last", "held");
    assert_eq!(named(), (0, unnamed));
    text("rules.txt", "row(?0, ?0)\nother: row(?0, ?1)\n");
    let differs = "qonveshir: .: rules.bin is not what rules.txt is packed to\n";
    assert_eq!(named(), (2, differs.into()));
    text("rules.txt", "a: row(?0, ?0)\na: row(?0, ?1)\n");
    let twice = "qonveshir: ./rules.txt: line 2: a names a line before\n";
    assert_eq!(named(), (2, twice.into()));
    text("rules.txt", "a: row(?0, ?0)\n  b: row(?0)\n");
    let wrong = "qonveshir: ./rules.txt: line 2, column 12: row takes 2 children, this is 1\n";
    assert_eq!(named(), (2, wrong.into()));
    fs::remove_dir_all(folder).unwrap();
}
