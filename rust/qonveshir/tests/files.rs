//! Files that can't be read, are no text, or are longer than any input may be.

mod common;

use common::{folder, run};
use std::fs;
use std::os::unix::fs::symlink;

#[test]
fn unreadable_files() {
    let folder = folder("unreadable");
    fs::create_dir(folder.join("folder")).unwrap();
    symlink("loop", folder.join("loop")).unwrap();
    fs::write(folder.join("latin"), b"open sh\xfct").unwrap();
    let calls: [&[&str]; 8] = [
        &["match", "FILE", "open", "open"],
        &["why", "FILE", "open", "open"],
        &["pack", "table", "FILE", "t"],
        &["pack", "rules", "symbols", "FILE", "r"],
        &["unpack", "rules", "FILE", "symbols"],
        &["unpack", "states", "symbols", "FILE"],
        &["cost", "symbols", "FILE"],
        &["explain", "FILE"],
    ];
    for file in ["nowhere", "folder", "loop"] {
        for call in calls {
            let call: Vec<&str> =
                call.iter().map(|&a| if a == "FILE" { file } else { a }).collect();
            let (status, text) = run(&folder, &call);
            assert_eq!(status, 2, "{call:?}: {text}");
            assert!(text.starts_with(&format!("qonveshir: {file}: ")), "{call:?}: {text}");
        }
        let (status, text) = run(&folder, &["report", file]);
        assert_eq!((status, text.as_str()), (1, "refused 13 table 0\n"));
        assert_eq!(run(&folder, &["check", file]).0, 1);
    }
    let (status, text) = run(&folder, &["match", "latin", "open", "open"]);
    assert_eq!(status, 2);
    assert!(text.starts_with("qonveshir: latin: invalid utf-8"), "{text}");
    let (status, text) = run(&folder, &["pack", "table", "symbols", "nowhere/t"]);
    assert_eq!(status, 2);
    assert!(text.starts_with("qonveshir: nowhere/t: "), "{text}");
    fs::remove_dir_all(folder).unwrap();
}

#[test]
fn files_without_end() {
    let folder = folder("endless");
    let zeros = "/dev/zero";
    let text = format!("qonveshir: {zeros}: a text of over 16777216 bytes\n");
    assert_eq!(run(&folder, &["match", zeros, "open", "open"]), (2, text.clone()));
    assert_eq!(run(&folder, &["pack", "rules", "symbols", zeros, "r"]), (2, text));
    let (status, text) = run(&folder, &["unpack", "states", "symbols", zeros]);
    assert_eq!(status, 1);
    assert!(text.starts_with("/dev/zero: refused 6 long, entry 0"), "{text}");
    let (status, text) = run(&folder, &["explain", zeros]);
    assert_eq!(status, 1);
    assert!(text.contains("refused 1 table") && text.ends_with("at most 200 bytes\n"), "{text}");
    fs::remove_dir_all(folder).unwrap();
}

#[test]
fn long_texts() {
    let folder = folder("long");
    let put = |name: &str, text: String| fs::write(folder.join(name), text).unwrap();
    put("rules", "open\n".repeat(65));
    let (status, text) = run(&folder, &["pack", "rules", "symbols", "rules", "r"]);
    assert_eq!(status, 1);
    assert!(text.starts_with("rules: refused 6 long, entry 0"), "{text}");
    put("states", "open\n".repeat(100_000));
    let (status, text) = run(&folder, &["pack", "states", "symbols", "states", "s"]);
    assert_eq!(status, 1);
    assert!(text.starts_with("states: refused 6 long, entry 0"), "{text}");
    put("deep", "gate(".repeat(1_000_000));
    let deep = "qonveshir: deep: line 1, column 161: nesting over 32\n";
    assert_eq!(run(&folder, &["pack", "states", "symbols", "deep", "s"]), (2, deep.into()));
    put("wide", format!("gates({})", vec!["open"; 1_000_000].join(",")));
    let wide =
        "qonveshir: wide: line 1, column 6: a list holds at most 255 children, not 1000000\n";
    assert_eq!(run(&folder, &["pack", "states", "symbols", "wide", "s"]), (2, wide.into()));
    put("complements", "!".repeat(1_000_000) + "?0");
    let many = "qonveshir: complements: line 1, column 1: the pattern takes 1000001 bytes, its \
                limit is 256\n";
    assert_eq!(run(&folder, &["pack", "rules", "symbols", "complements", "r"]), (2, many.into()));
    fs::remove_dir_all(folder).unwrap();
}
