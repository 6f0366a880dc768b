//! Edition 2 of the rule language: `splice`, `--edition`, and what sheets tell of their edition.

mod common;

use common::{folder, run, SYMBOLS};
use std::fs;
use std::path::{Path, PathBuf};

/// What is said of a list within a list.
const MEND: &str =
    "in edition 2, a list directly inside a list of its class; qonveshir splice puts \
                    its elements in its place\n";

/// Runs a command whose arguments have no blanks.
fn command(folder: &Path, text: &str) -> (i32, String) {
    run(folder, &text.split(' ').collect::<Vec<_>>())
}

/// A folder with document 01's symbols and texts of these names.
fn with(name: &str, texts: &[(&str, &str)]) -> PathBuf {
    let folder = folder(name);
    texts.iter().for_each(|(name, text)| fs::write(folder.join(name), text).unwrap());
    folder
}

#[test]
fn splices_a_rule_or_state() {
    let folder = folder("splice-one");
    let splice = |symbols: &str, text: &str| run(&folder, &["splice", symbols, text]);
    let classes = "open shut gate/1 gates/* ring/* doors=gates";
    for (symbols, text, spliced) in [
        (SYMBOLS, "gates(gates(open), shut)", "gates(open, shut)"),
        (SYMBOLS, "gates( gates(gates(), gates(held)),open)", "gates(held, open)"),
        (SYMBOLS, "gates(gates())", "gates()"),
        (
            SYMBOLS,
            "row(gates(open), gate(gates(gates(shut))))",
            "row(gates(open), gate(gates(shut)))",
        ),
        (SYMBOLS, "gates(@0, gates(?0, @1), !gates(open))", "gates(@0, ?0, @1, !gates(open))"),
        (SYMBOLS, "!gates(gates(@0))", "!gates(@0)"),
        (SYMBOLS, "gates(gate(gates(open)))", "gates(gate(gates(open)))"),
        (classes, "gates(doors(open, ring(ring(shut))))", "gates(open, ring(shut))"),
        (classes, "doors(gates(open), ?0)", "doors(open, ?0)"),
    ] {
        assert_eq!(splice(symbols, text), (0, format!("{spliced}\n")), "{text}");
        assert_eq!(splice(symbols, spliced), (0, format!("{spliced}\n")), "{spliced}");
    }
    let long = format!("gates(gates({0}), gates({0}))", vec!["open"; 128].join(", "));
    let (status, text) = splice(SYMBOLS, &long);
    assert_eq!(status, 1);
    assert!(
        text.starts_with("state: refused 6 long: ") && text.contains("over 255 elements"),
        "{text}"
    );
    assert_eq!(splice(SYMBOLS, &long.replacen("open, ", "", 1)).0, 0);
    let wrong = "qonveshir: rule, column 11: closed is not in the table\n";
    assert_eq!(splice(SYMBOLS, "gates(@0, closed)"), (2, wrong.into()));
    fs::remove_dir_all(folder).unwrap();
}

#[test]
fn splices_a_text_and_leaves_the_rest() {
    let text = "# rows\n\n  west : gates(gates(open), shut)  # two\r\nrow( open ,shut)#kept\n\
                gates: gates(gates(@0), !gates(gates()))";
    let spliced = "# rows\n\n  west : gates(open, shut)  # two\r\nrow( open ,shut)#kept\n\
                   gates: gates(@0, !gates())";
    let folder = with("splice-text", &[("text", text)]);
    for input in ["text", "out"] {
        let said = format!("out: {} bytes\n", spliced.len());
        assert_eq!(command(&folder, &format!("splice text symbols {input} out")), (0, said));
        assert_eq!(fs::read_to_string(folder.join("out")).unwrap(), spliced);
    }
    let row = format!("gates({})", vec!["open"; 128].join(", "));
    fs::write(folder.join("text"), format!("open\n\nlong: gates({row}, {row})\n")).unwrap();
    let (status, text) = command(&folder, "splice text symbols text out");
    assert_eq!((status, text.starts_with("text: line 3: refused 6 long: ")), (1, true), "{text}");
    assert_eq!(fs::read_to_string(folder.join("out")).unwrap(), spliced);
    fs::write(folder.join("text"), "open\nrow(open, held, shut)\n").unwrap();
    let wrong = "qonveshir: text: line 2, column 21: row takes 2 children, this is 3\n";
    assert_eq!(command(&folder, "splice text symbols text text"), (2, wrong.into()));
    fs::remove_dir_all(folder).unwrap();
}

#[test]
fn splices_sheets() {
    let rules = "gates(@0, gates(?0, @1))\n!gates(gates())\n";
    let states = "gates(gates(open), shut)\nheld\n";
    let folder = with("splice-sheets", &[("rules", rules), ("states", states)]);
    for (kind, spliced, bytes) in [
        ("rules", "gates(@0, ?0, @1)\n!gates()\n", [2, 128, 10, 0, 5, 0, 15, 0, 3, 0]),
        ("states", "gates(open, shut)\nheld\n", [2, 128, 10, 0, 4, 0, 14, 0, 1, 0]),
    ] {
        assert_eq!(command(&folder, &format!("pack {kind} symbols {kind} one")).0, 0);
        let (status, text) = command(&folder, &format!("splice {kind} symbols one two"));
        assert_eq!((status, text.ends_with(" bytes, edition 2\n")), (0, true), "{text}");
        let two = fs::read(folder.join("two")).unwrap();
        assert_eq!(two[..10], bytes, "{kind}");
        assert_eq!(command(&folder, &format!("unpack {kind} symbols two")), (0, spliced.into()));
        // A sheet of edition 2 stays as it is, and one that is not spliced is mended.
        let mut marked = fs::read(folder.join("one")).unwrap();
        marked[1] |= 128;
        fs::write(folder.join("marked"), marked).unwrap();
        let (status, text) = command(&folder, &format!("unpack {kind} symbols marked"));
        assert_eq!((status, text), (1, format!("marked: refused 16 unspliced, entry 0: {MEND}")));
        for sheet in ["two", "marked"] {
            assert_eq!(command(&folder, &format!("splice {kind} symbols {sheet} again")).0, 0);
            assert_eq!(fs::read(folder.join("again")).unwrap(), two, "{kind} {sheet}");
        }
    }
    fs::remove_dir_all(folder).unwrap();
}

#[test]
fn names_the_entry_of_a_sheet_that_is_not_spliced() {
    let row = format!("gates({})", vec!["open"; 128].join(", "));
    let folder = with("splice-refused", &[("states", &format!("held\ngates({row}, {row})\n"))]);
    assert_eq!(command(&folder, "pack states symbols states one").0, 0);
    let (status, text) = command(&folder, "splice states symbols one two");
    assert_eq!((status, text.starts_with("one: refused 6 long, entry 1: ")), (1, true), "{text}");
    let (status, text) = command(&folder, "splice rules symbols one two");
    assert_eq!((status, text.starts_with("one: refused 6 long, entry 1: ")), (1, true), "{text}");
    fs::write(folder.join("one"), [2, 0, 10, 0, 1, 0, 11, 0, 2, 0, 0, 4, 0]).unwrap();
    let (status, text) = command(&folder, "splice states symbols one two");
    assert_eq!((status, text.starts_with("one: refused 2 short, entry 1: ")), (1, true), "{text}");
    fs::write(folder.join("one"), [0, 0, 0]).unwrap();
    let (status, text) = command(&folder, "splice rules symbols one two");
    assert_eq!((status, text.starts_with("one: refused 9 directory, ")), (1, true), "{text}");
    assert!(!folder.join("two").exists());
    fs::write(folder.join("one"), []).unwrap();
    assert_eq!(command(&folder, "splice rules symbols one two").0, 1);
    fs::write(folder.join("one"), [0, 0]).unwrap();
    assert_eq!(command(&folder, "splice rules symbols one two").0, 0);
    assert_eq!(fs::read(folder.join("two")).unwrap(), [0, 128]);
    fs::remove_dir_all(folder).unwrap();
}

#[test]
fn splices_files() {
    let folder = folder("splice-files");
    fs::write(folder.join("record"), [5, 2, 5, 1, 0, 1]).unwrap();
    assert_eq!(command(&folder, "splice record symbols record out"), (0, "out: 4 bytes\n".into()));
    assert_eq!(fs::read(folder.join("out")).unwrap(), [5, 2, 0, 1]);
    fs::write(folder.join("pattern"), [5, 2, 5, 1, 232, 248, 200]).unwrap();
    let written = (0, "out: 5 bytes\n".into());
    assert_eq!(command(&folder, "splice pattern symbols pattern out"), written);
    assert_eq!(fs::read(folder.join("out")).unwrap(), [5, 2, 232, 248, 200]);
    let (status, text) = command(&folder, "splice record symbols pattern out");
    assert_eq!((status, text.starts_with("pattern: refused 4 code: ")), (1, true), "{text}");
    fs::remove_dir_all(folder).unwrap();
}

#[test]
fn matches_in_edition_2() {
    let folder = folder("match-2");
    let symbols = "open shut held row/2 gates/* doors=gates";
    let find = |call: &[&str], rule, state| run(&folder, &[call, &[symbols, rule, state]].concat());
    let (nested, spliced) = ("gates(gates(open), shut)", "gates(open, shut)");
    let bound = "bound 3\n?0 = gates(open)  (offset 2, length 3)\n";
    assert_eq!(find(&["match"], "gates(?0, shut)", nested), (0, bound.into()));
    let bound = "bound 3\n?0 = open  (offset 2, length 1)\n";
    for option in [&["match", "--edition", "2"][..], &["match", "--edition", "2", "--plain"]] {
        assert_eq!(find(option, "gates(?0, shut)", spliced), (0, bound.into()));
        let refused = format!("refused 16 unspliced, state, column 7: {MEND}");
        assert_eq!(find(option, "gates(?0, shut)", nested), (1, refused));
        let refused = format!("refused 16 unspliced, rule, column 12: {MEND}");
        assert_eq!(find(option, "gates(@0 , doors())", nested), (1, refused));
    }
    let all = find(&["match", "--all", "--edition", "2"], "gates(@0, !gates(@1))", spliced);
    assert!(all.1.ends_with("answers: 1, sum of counts: 11\n"), "{}", all.1);
    let why = find(&["why", "--edition", "2"], "gates(open)", spliced);
    assert_eq!((why.0, why.1.contains("the list has elements left")), (1, true), "{}", why.1);
    let refused = format!("refused 16 unspliced, state, column 11: {MEND}");
    let why = find(&["why", "--edition", "2"], "held", "row(gates(gates()), held)");
    assert_eq!(why, (1, refused));
    for wrong in ["0", "3", "two", ""] {
        let expected =
            format!("qonveshir: --edition {wrong}: expected --edition 1 or --edition 2\n");
        assert_eq!(find(&["match", "--edition", wrong], "held", "held"), (2, expected));
    }
    assert_eq!(find(&["match", "--edition", "1"], "held", "held"), (0, "bound 1\n".into()));
    assert_eq!(run(&folder, &["match", symbols, "held", "held", "--edition"]).0, 2);
    fs::remove_dir_all(folder).unwrap();
}

#[test]
fn packs_in_edition_2() {
    let nested = "a: held\n\n b: gates( gates(open), shut)\n";
    let folder = with("pack-2", &[("nested", nested), ("spliced", "gates(open, shut)\nheld\n")]);
    for kind in ["rules", "states"] {
        let refused = format!("nested: refused 16 unspliced, line 3, column 12: {MEND}");
        let call = format!("pack {kind} --edition 2 symbols nested out");
        assert_eq!(command(&folder, &call), (1, refused), "{kind}");
        assert!(!folder.join("out").exists());
        let written = (0, "out: 15 bytes, edition 2\n".into());
        let call = format!("pack {kind} symbols spliced out --edition 2");
        assert_eq!(command(&folder, &call), written, "{kind}");
        let marked = fs::read(folder.join("out")).unwrap();
        assert_eq!(marked[..2], [2, 128]);
        assert_eq!(
            command(&folder, &format!("pack {kind} --edition 1 symbols spliced out")).1,
            "out: 15 bytes\n"
        );
        let simple = fs::read(folder.join("out")).unwrap();
        assert_eq!((simple[..2].to_vec(), &simple[2..]), (vec![2, 0], &marked[2..]));
        fs::remove_file(folder.join("out")).unwrap();
    }
    for call in ["pack table --edition 2 symbols out", "pack classes --edition 2 symbols out"] {
        assert_eq!(command(&folder, call).0, 2);
    }
    fs::remove_dir_all(folder).unwrap();
}

#[test]
fn costs_and_unpacks_by_the_sheet() {
    let folder = with("cost-2", &[("rules", "gates(?0, !gates(shut))\ngates(@0)\n")]);
    assert_eq!(command(&folder, "pack rules --edition 2 symbols rules r").0, 0);
    let lines = "at most 5: gates(?0, !gates(shut))\nno bound, plain: gates(@0)\n";
    assert_eq!(command(&folder, "cost symbols r"), (0, lines.into()));
    // The class list counts: doors inside gates is unspliced where both mean the same.
    fs::write(folder.join("joined"), "open gates/* doors=gates").unwrap();
    fs::write(folder.join("apart"), "open gates/* doors/*").unwrap();
    fs::write(folder.join("text"), "gates(doors(open))").unwrap();
    assert_eq!(command(&folder, "pack rules --edition 2 apart text r").0, 0);
    assert_eq!(
        command(&folder, "cost apart r"),
        (0, "at most 3, plain: gates(doors(open))\n".into())
    );
    for call in ["cost joined r", "unpack rules joined r", "unpack states joined r"] {
        let refused = format!("r: refused 16 unspliced, entry 0: {MEND}");
        assert_eq!(command(&folder, call), (1, refused), "{call}");
    }
    fs::remove_dir_all(folder).unwrap();
}

#[test]
fn stores_and_restores_in_edition_2() {
    let folder = with("store-2", &[("text", "gates(open, shut)\n")]);
    let refused = |path: &str| (1, format!("{path}: refused 16 unspliced: {MEND}"));
    fs::write(folder.join("old"), [5, 2, 5, 1, 0, 1]).unwrap();
    assert_eq!(command(&folder, "store record --edition 2 symbols old new"), refused("old"));
    assert_eq!(command(&folder, "store record symbols old new").0, 0);
    let call = "restore record --edition 2 symbols new back";
    assert_eq!(command(&folder, call), refused("new"));
    assert_eq!(command(&folder, "splice record symbols old old").0, 0);
    assert_eq!(command(&folder, "store record --edition 2 symbols old new").0, 0);
    assert_eq!(command(&folder, call), (0, "back: 4 bytes\n".into()));
    assert_eq!(fs::read(folder.join("back")).unwrap(), [5, 2, 0, 1]);
    // The states of a sheet, which tells its edition.
    assert_eq!(command(&folder, "pack states --edition 2 symbols text sheet").0, 0);
    assert_eq!(command(&folder, "store states symbols sheet lines").0, 0);
    assert_eq!(command(&folder, "store states --edition 2 symbols sheet lines").0, 2);
    let written = (0, "back: 10 bytes, edition 2\n".into());
    assert_eq!(command(&folder, "restore states --edition 2 symbols lines back"), written);
    assert_eq!(fs::read(folder.join("back")).unwrap(), fs::read(folder.join("sheet")).unwrap());
    fs::write(folder.join("lines"), "02\n05010200050000\n").unwrap();
    let (status, text) = command(&folder, "restore states --edition 2 symbols lines back");
    assert_eq!(
        (status, text.starts_with("lines: line 2: refused 16 unspliced: ")),
        (1, true),
        "{text}"
    );
    fs::remove_dir_all(folder).unwrap();
}

#[test]
fn explains_what_is_unspliced() {
    let folder = folder("explain-2");
    let put = |name: &str, bytes: &[u8]| fs::write(folder.join(name), bytes).unwrap();
    assert_eq!(command(&folder, "explain 16"), (0, format!("16 unspliced: {MEND}")));
    put("t", &[0, 255, 255]);
    put("c", &[0, 1, 1]);
    put("record", &[1, 2, 0, 2, 0]);
    let accepted = "t: accepted as table\nrecord: accepted as record\n";
    assert_eq!(command(&folder, "explain t --record record"), (0, accepted.into()));
    assert_eq!(command(&folder, "explain --edition 2 t --record record"), (0, accepted.into()));
    let told = "refused 16 unspliced\ninput: record\nbyte: 3, which is 2\n\
                expected: this list's elements in its place, as qonveshir splice puts them\n";
    for kind in ["record", "pattern"] {
        let call = format!("explain --edition 2 t --classes c --{kind} record");
        let told = format!("record: {told}").replace("input: record", &format!("input: {kind}"));
        assert_eq!(command(&folder, &call), (1, told));
    }
    put("stored", &[1, 1, 4, 0, 1, 0, 0, 0]);
    let (status, text) = command(&folder, "explain --edition 2 t --stored stored");
    assert_eq!((status, text.contains("byte: 4, which is 1\n")), (1, true), "{text}");
    put("s", &[2, 128, 10, 0, 1, 0, 11, 0, 5, 0, 0, 1, 2, 0, 2, 0]);
    let accepted = "t: accepted as table\ns: accepted as states, edition 2\n";
    assert_eq!(command(&folder, "explain t --states s"), (0, accepted.into()));
    let (status, text) = command(&folder, "explain t --classes c --states s");
    let place = "input: states, entry 1\nbyte: 14, byte 3 of the entry, which is 2\n";
    assert_eq!((status, text.contains(place)), (1, true), "{text}");
    // The mark is no part of the count.
    put("s", &[1, 128, 6, 0, 2, 0, 0]);
    let (status, text) = command(&folder, "explain t --states s");
    let place = "byte: 4, which is 2\nexpected: a length over 0 that stays within the sheet\n";
    assert_eq!((status, text.ends_with(place)), (1, true), "{text}");
    put("s", &[0, 128, 0]);
    let (status, text) = command(&folder, "explain t --states s");
    let place = "byte: 2, which is 0\nexpected: the end of the sheet, where its last entry ends\n";
    assert_eq!((status, text.ends_with(place)), (1, true), "{text}");
    fs::remove_dir_all(folder).unwrap();
}

#[test]
fn a_folder_has_one_edition() {
    let texts = [
        ("symbols.txt", SYMBOLS),
        ("rules.txt", "any: gates(@0, shut)\n"),
        ("states.txt", "west: gates(open, shut)\nheld\n"),
    ];
    let folder = with("folder-2", &texts);
    let packed = "./table.bin: 6 bytes\n./rules.bin: 10 bytes, edition 2\n\
                  ./states.bin: 15 bytes, edition 2\n";
    assert_eq!(command(&folder, "pack folder --edition 2 ."), (0, packed.into()));
    let accepted =
        "./table.bin: accepted, symbols: 6\n./rules.bin: accepted, rules: 1, edition 2\n\
                    ./states.bin: accepted, states: 2, edition 2\n";
    assert_eq!(command(&folder, "check ."), (0, accepted.into()));
    let report = "state rule word count\nwest any bound 5\nheld - none 1\n";
    assert_eq!(command(&folder, "report --names ."), (0, report.into()));
    // What is refused leaves all three files as they are.
    fs::write(folder.join("states.txt"), "west: gates(gates(open), shut)\n").unwrap();
    fs::write(folder.join("rules.txt"), "gates(@0)\n").unwrap();
    assert_eq!(command(&folder, "pack folder --edition 2 .").0, 1);
    assert_eq!(command(&folder, "check ."), (0, accepted.into()));
    // Unlike editions are 9 of the states, before their contents and after their size.
    let unlike = |mark, byte: &str| {
        let told = format!(
            "./states.bin: refused 9 directory\ninput: states\nbyte: 1, which is {byte}\n\
             expected: edition {mark}, which the rules have\nthe report: refused 9 states 0\n"
        );
        let (status, text) = command(&folder, "check .");
        assert_eq!((status, text.ends_with(&told)), (1, true), "{text}");
        assert_eq!(command(&folder, "report ."), (1, "refused 9 states 0\n".into()));
    };
    let put = |name: &str, bytes: &[u8]| fs::write(folder.join(name), bytes).unwrap();
    for states in [&[1, 0, 6, 0, 1, 0, 99][..], &[0, 0]] {
        put("states.bin", states);
        unlike(2, "0");
    }
    put("states.bin", &[0; 40_000]);
    assert_eq!(command(&folder, "report ."), (1, "refused 6 states 0\n".into()));
    put("states.bin", &[0, 128]);
    put("rules.bin", &[0, 0]);
    unlike(1, "128");
    // Where the rules are refused, nothing is said of another edition.
    put("rules.bin", &[1, 0, 6, 0, 1, 0, 99]);
    let (status, text) = command(&folder, "check .");
    let told = "./states.bin: accepted, states: 0, edition 2\nthe report: refused 4 rules 0\n";
    assert_eq!((status, text.ends_with(told)), (1, true), "{text}");
    fs::remove_dir_all(folder).unwrap();
}
