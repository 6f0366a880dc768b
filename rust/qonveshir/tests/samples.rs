//! The samples: what their texts are packed to, and the reports on them.

use std::path::{Path, PathBuf};
use std::process::Command;
use std::{collections::HashSet, env, fs};

#[path = "../examples/station.rs"]
mod station;

fn samples() -> PathBuf {
    Path::new(env!("CARGO_MANIFEST_DIR")).join("../../samples")
}

/// A copy of a sample's texts in a folder of its own, packed.
fn packed(name: &str) -> PathBuf {
    let folder = env::temp_dir().join(format!("qonveshir-sample-{name}-{}", std::process::id()));
    fs::create_dir_all(&folder).unwrap();
    for text in ["symbols.txt", "rules.txt", "states.txt"] {
        fs::copy(samples().join(name).join(text), folder.join(text)).unwrap();
    }
    run(&["pack", "folder", folder.to_str().unwrap()]);
    folder
}

/// Splices the texts of a folder, packs them in edition 2, and gives the report.
fn report_in_edition_2(folder: &Path) -> String {
    let path = |name: &str| folder.join(name).to_str().unwrap().to_string();
    for text in [path("rules.txt"), path("states.txt")] {
        run(&["splice", "text", &path("symbols.txt"), &text, &text]);
    }
    let packed = run(&["pack", "folder", "--edition", "2", &path("")]);
    assert_eq!(packed.matches(", edition 2\n").count(), 2, "{packed}");
    run(&["report", &path("")])
}

/// The output of a command that succeeds.
fn run(arguments: &[&str]) -> String {
    let output = Command::new(env!("CARGO_BIN_EXE_qonveshir")).args(arguments).output().unwrap();
    assert!(output.status.success(), "{arguments:?}: {output:?}");
    String::from_utf8(output.stdout).unwrap()
}

#[test]
fn the_park_is_packed_from_its_texts() {
    let folder = packed("park");
    for file in ["table.bin", "rules.bin", "states.bin"] {
        let stored = fs::read(samples().join("park").join(file)).unwrap();
        assert_eq!(fs::read(folder.join(file)).unwrap(), stored, "{file}");
    }
    let report = run(&["report", folder.to_str().unwrap()]);
    let lines: Vec<String> = report.lines().map(|line| format!("    {line}\n")).collect();
    let text = fs::read_to_string(samples().join("park/park.txt")).unwrap();
    assert!(text.ends_with(&lines.concat()), "{report}");
    let named = "state rule word count\nboth-open clear bound 8\none-shut differ bound 4\n\
                 waiting - none 2\n";
    assert_eq!(run(&["report", "--names", folder.to_str().unwrap()]), named);
    fs::remove_dir_all(folder).unwrap();
}

#[test]
fn the_station_has_its_size_and_its_report() {
    let stored = |name: &str| fs::read_to_string(samples().join("station").join(name)).unwrap();
    assert_eq!(stored("states.txt"), station::states());
    let folder = packed("station");
    let path = folder.to_str().unwrap();
    let checked = ["table.bin: accepted, symbols: 40", "rules.bin: accepted, rules: 48"];
    let states = "states.bin: accepted, states: 2000";
    let lines = checked.into_iter().chain([states]).map(|line| format!("{path}/{line}\n"));
    assert_eq!(run(&["check", path]), lines.collect::<String>());
    assert_eq!(run(&["report", path]), stored("report.txt"));
    let report = run(&["report", "--names", path]);
    // Each rule decides some state, and each word comes up.
    for (field, words) in [(1, rule_names(&stored("rules.txt"))), (2, words())] {
        let found = report.lines().skip(1).map(|line| line.split(' ').nth(field).unwrap().into());
        let found: HashSet<String> = found.filter(|word| word != "-").collect();
        assert_eq!(found, words);
    }
    // No list of it is directly inside one of the same symbol, so edition 2 means the same.
    assert_eq!(report_in_edition_2(&folder), stored("report.txt"));
    assert_eq!(fs::read_to_string(folder.join("states.txt")).unwrap(), stored("states.txt"));
    fs::remove_dir_all(folder).unwrap();
}

#[test]
fn the_sections_have_a_report_in_each_edition() {
    let stored = |name: &str| fs::read_to_string(samples().join("sections").join(name)).unwrap();
    let folder = packed("sections");
    assert_eq!(run(&["report", folder.to_str().unwrap()]), stored("report.txt"));
    assert_eq!(report_in_edition_2(&folder), stored("report-2.txt"));
    assert_ne!(stored("report.txt"), stored("report-2.txt"));
    fs::remove_dir_all(folder).unwrap();
}

#[test]
fn the_station_says_what_each_rule_is_for() {
    let stored = |name: &str| fs::read_to_string(samples().join("station").join(name)).unwrap();
    let text = stored("station.txt");
    let lines = text.lines().filter_map(|line| line.strip_prefix("| ")?.split_once(" |"));
    let said: HashSet<String> = lines.map(|(name, _)| name.to_string()).collect();
    assert!(rule_names(&stored("rules.txt")).is_subset(&said));
}

#[test]
fn the_game_is_played_as_it_says() {
    let stored = |name: &str| fs::read_to_string(samples().join("game").join(name)).unwrap();
    let folder = samples().join("game");
    for edition in ["1", "2"] {
        let play = |options: &[&str]| {
            let call = ["play", folder.to_str().unwrap(), "--turns", "5", "--edition", edition];
            let program =
                Command::new(env!("CARGO_BIN_EXE_qonveshir")).args(call).args(options).output();
            String::from_utf8(program.unwrap().stdout).unwrap()
        };
        let states = stored("states.txt");
        let starts =
            notation::entries(&states).map(|entry| play(&["--start", entry.name.unwrap()]));
        assert_eq!(play(&["--plan"]) + &starts.collect::<String>(), stored("played.txt"));
    }
    let text = stored("game.txt");
    let files = fs::read_dir(folder).unwrap().map(|file| file.unwrap().file_name());
    let told = |name: &str| name == "game.txt" || text.contains(&format!("\n| {name} |"));
    assert!(files.into_iter().all(|name| told(name.to_str().unwrap())));
}

fn rule_names(text: &str) -> HashSet<String> {
    notation::entries(text).map(|entry| entry.name.unwrap().to_string()).collect()
}

fn words() -> HashSet<String> {
    ["bound", "none", "spent"].map(String::from).into()
}
