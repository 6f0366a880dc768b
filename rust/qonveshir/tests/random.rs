//! Random command lines, in this process: none panics, and each ends with a status.

use command_line::{run, Console, Look};
use std::sync::{Mutex, PoisonError};
use std::{env, fs, path::PathBuf};

/// How many command lines are tried, of the commands that came later too, by which seed.
const LINES: usize = 100_000;
const LATER_LINES: usize = 20_000;
const SEED: u64 = 26;

/// Arguments to draw from; those that are outputs stay within the folder.
const WORDS: &[&str] = &[
    "match",
    "why",
    "pack",
    "unpack",
    "check",
    "report",
    "cost",
    "splice",
    "store",
    "restore",
    "explain",
    "help",
    "table",
    "classes",
    "rules",
    "states",
    "folder",
    "text",
    "record",
    "pattern",
    "--edition",
    "--all",
    "--marks",
    "--names",
    "--allowance",
    "--code",
    "--classes",
    "--rules",
    "--states",
    "--pattern",
    "--record",
    "--help",
    "-h",
    "--version",
    "--",
    "-",
    "",
    " ",
    "0",
    "1",
    "2",
    "7",
    "15",
    "99",
    "-1",
    "255",
    "256",
    "100000",
    "4294967296",
    "symbols",
    "symbols.txt",
    "rules.txt",
    "states.txt",
    "table.bin",
    "rules.bin",
    "states.bin",
    "random.bin",
    "out.bin",
    "nowhere",
    ".",
    "nowhere/x",
    "open shut held gate/1 row/2 gates/*",
    "open shut held gate/1 row/2 gates/* closed=shut",
    "open gate/9",
    "é ü",
    "open open",
    "# a",
];

/// More to draw from, for the commands that came later.
const LATER_WORDS: &[&str] =
    &["example", "session", "play", "--size", "--turns", "--plan", "--start"];

/// Characters of random rules and states. None parts a path: any word may stand for an output.
const CHARACTERS: &[char] =
    &['(', ')', ',', '!', '?', '@', '0', '1', '9', 'o', ' ', ':', '#', 'é', '\n'];
/// Symbols in place, with two spellings of one.
const SPELLED: &str = "open shut held gate/1 row/2 gates/* closed=shut doors=gates";
const SYMBOLS: &[&str] = &["open", "shut", "held", "gate", "row", "gates", "doors"];

struct Draw {
    state: u64,
    /// The words and the calls to draw from.
    words: Vec<&'static str>,
    calls: &'static [&'static str],
}

impl Draw {
    fn new(words: &[&[&'static str]], calls: &'static [&'static str]) -> Self {
        Draw { state: SEED, words: words.concat(), calls }
    }

    fn below(&mut self, limit: usize) -> usize {
        self.state = self.state.wrapping_add(0x9e37_79b9_7f4a_7c15);
        let mixed = (self.state ^ (self.state >> 30)).wrapping_mul(0xbf58_476d_1ce4_e5b9);
        ((mixed ^ (mixed >> 31)) % limit as u64) as usize
    }

    fn of<T: Copy>(&mut self, things: &[T]) -> T {
        things[self.below(things.len())]
    }

    /// A command line that is mostly a call of a command, with what it takes in some order.
    fn line(&mut self) -> Vec<String> {
        if self.below(3) > 0 {
            let call = self.of(self.calls);
            let words = call.split(' ').map(|word| self.filled(word)).collect();
            return words;
        }
        (0..self.below(7)).map(|_| self.word()).collect()
    }

    /// What stands for a word of a call, now and then something else.
    fn filled(&mut self, word: &str) -> String {
        match word {
            _ if self.below(25) == 0 => self.word(),
            "SYMBOLS" if self.below(8) == 0 => self.of(&WORDS[WORDS.len() - 6..]).into(),
            "SYMBOLS" => self.of(&["symbols", SPELLED]).into(),
            "RULE" | "STATE" if self.below(2) == 0 => self.row(word == "RULE"),
            "RULE" => self.term(3, true),
            "STATE" => self.term(3, false),
            "TEXT" => self.of(&["rules.txt", "states.txt"]).into(),
            "FILE" => self.of(&["table.bin", "rules.bin", "states.bin", "random.bin"]).into(),
            "NUMBER" => self.below(20_000).to_string(),
            "SIZE" => self.below(8).to_string(),
            "TURNS" => self.below(5).to_string(),
            word => word.into(),
        }
    }

    fn word(&mut self) -> String {
        match self.below(4) {
            0 => self.term(4, true),
            1 => (0..self.below(12)).map(|_| self.of(CHARACTERS)).collect(),
            _ => {
                let place = self.below(self.words.len());
                self.words[place].into()
            }
        }
    }

    /// A list of small parts, in a rule with run names among them.
    fn row(&mut self, pattern: bool) -> String {
        let length = self.below(7);
        let children = (0..length).map(|_| match self.below(3) {
            0 if pattern => format!("@{}", self.below(2)),
            _ => self.term(1, pattern),
        });
        format!("gates({})", children.collect::<Vec<_>>().join(", "))
    }

    /// A rule or a state, which may be wrong.
    fn term(&mut self, depth: usize, pattern: bool) -> String {
        match self.below(if pattern { 14 } else { 9 }) {
            9..=11 => format!("?{}", self.below(3)),
            12 if self.below(8) == 0 => format!("@{}", self.below(3)),
            13 => "!".to_string() + &self.term(depth, pattern),
            0..=3 if depth > 0 => {
                let children = self.below(4);
                let children: Vec<_> =
                    (0..children).map(|_| self.term(depth - 1, pattern)).collect();
                format!("gates({})", children.join(", "))
            }
            4 if depth > 0 => format!("gate({})", self.term(depth - 1, pattern)),
            5 | 6 if depth > 0 => {
                format!("row({}, {})", self.term(depth - 1, pattern), self.term(depth - 1, pattern))
            }
            8 if self.below(8) == 0 => self.of(SYMBOLS).into(),
            _ => self.of(&SYMBOLS[..3]).into(),
        }
    }

    /// Files of random bytes, so that checks have something to refuse.
    fn files(&mut self) {
        for name in ["table.bin", "rules.bin", "states.bin", "random.bin"] {
            let length = self.below(40);
            let bytes: Vec<u8> =
                (0..length).map(|_| self.of(&[0, 1, 2, 5, 6, 128, 200, 232, 248, 255])).collect();
            fs::write(name, bytes).unwrap();
        }
        fs::write("rules.txt", (0..3).map(|_| self.term(2, true) + "\n").collect::<String>())
            .unwrap();
        let states = (0..3).map(|i| format!("s{i}: {}\n", self.term(2, false)));
        fs::write("states.txt", states.collect::<String>()).unwrap();
    }

    /// Lines for a session, some of which are wrong.
    fn script(&mut self) -> String {
        let lines = (0..self.below(8)).map(|_| match self.below(6) {
            0 => format!("keep {}", self.of(&["a", "b", "c", "7", "", "a b"])),
            1 => format!("return {}", self.of(&["a", "b", "c", "7", "", "?"])),
            2 | 3 => format!("apply {} => {}", self.term(2, true), self.term(2, true)),
            4 => self.of(&["show", "kept", "help", "# show", "", "quit"]).into(),
            _ => self.word(),
        });
        lines.collect::<Vec<_>>().join("\n")
    }

    /// The files of a game, and the symbols, which a line may have written over.
    fn game(&mut self) {
        put_symbols();
        for name in ["loader.txt", "sender.txt"] {
            let moves = (0..self.below(3)).map(|_| self.move_of_names() + "\n");
            fs::write(name, moves.collect::<String>()).unwrap();
        }
        let goal = format!("gates(@0, {}, @1)", self.of(&SYMBOLS[..3]));
        let goal = if self.below(3) == 0 { self.row(true) } else { goal };
        fs::write("goal.txt", goal).unwrap();
        fs::write("start.txt", self.row(false)).unwrap();
    }

    /// A move of a row, whose template has the names of its rule, but for a wrong one now and then.
    fn move_of_names(&mut self) -> String {
        let [one, other, wrong] = [3, 3, 20].map(|limit| self.below(limit));
        let symbol = |i: usize| SYMBOLS[i];
        let run = if wrong == 0 { 2 } else { 1 };
        format!("gates(@0, {}, @1) => gates(@0, {}, @{run})", symbol(one), symbol(other))
    }
}

/// Calls of the commands, in which some words stand for something to draw.
const CALLS: &[&str] = &[
    "match SYMBOLS RULE STATE",
    "match --marks SYMBOLS RULE STATE",
    "match --all --allowance NUMBER SYMBOLS RULE STATE",
    "match --edition 2 SYMBOLS RULE STATE",
    "match --plain --edition 2 SYMBOLS RULE STATE",
    "why SYMBOLS RULE STATE",
    "why --edition 2 SYMBOLS RULE STATE",
    "why --marks --allowance NUMBER SYMBOLS RULE STATE",
    "pack table SYMBOLS out.bin",
    "pack classes SYMBOLS out.bin",
    "pack rules SYMBOLS TEXT out.bin",
    "pack states SYMBOLS TEXT out.bin",
    "pack folder .",
    "pack rules --edition 2 SYMBOLS TEXT out.bin",
    "pack states --edition 2 SYMBOLS TEXT out.bin",
    "pack folder --edition 2 .",
    "splice SYMBOLS RULE",
    "splice SYMBOLS STATE",
    "splice text SYMBOLS TEXT out.txt",
    "splice rules SYMBOLS FILE out.bin",
    "splice states SYMBOLS FILE out.bin",
    "splice pattern SYMBOLS FILE out.bin",
    "splice record SYMBOLS FILE out.bin",
    "store record --edition 2 SYMBOLS FILE out.bin",
    "restore record --edition 2 SYMBOLS FILE out.bin",
    "unpack classes SYMBOLS FILE",
    "unpack rules SYMBOLS FILE",
    "unpack states SYMBOLS FILE",
    "cost SYMBOLS FILE",
    "check .",
    "report .",
    "report --names .",
    "explain FILE --rules FILE --states FILE",
    "explain FILE --pattern FILE --record FILE --classes FILE",
    "explain --edition 2 FILE --pattern FILE --record FILE --stored FILE",
    "explain NUMBER",
    "explain --code NUMBER",
];

/// Calls of the commands that came later.
const LATER_CALLS: &[&str] = &[
    "session SYMBOLS STATE",
    "session --edition 2 --allowance NUMBER SYMBOLS STATE",
    "example SYMBOLS RULE",
    "example --edition 2 --allowance NUMBER SYMBOLS RULE",
    "example SYMBOLS RULE --size SIZE",
    "play . --turns TURNS",
    "play . --plan --turns TURNS --allowance NUMBER",
    "play --edition 2 --turns TURNS --plan --start s1 .",
];

/// Whether a word, taken for a path, names something in the folder that the test runs in.
fn stays(word: &str) -> bool {
    !word.starts_with('/') && !word.contains("..")
}

/// The folder that the process runs in is one for all tests.
static FOLDER: Mutex<()> = Mutex::new(());

/// Does something in a folder of its own, with the symbols.
fn in_folder(what: impl FnOnce()) {
    let _alone = FOLDER.lock().unwrap_or_else(PoisonError::into_inner);
    let folder: PathBuf = env::temp_dir().join(format!("qonveshir-random-{}", std::process::id()));
    fs::create_dir_all(&folder).unwrap();
    env::set_current_dir(&folder).unwrap();
    put_symbols();
    what();
    env::set_current_dir(env::temp_dir()).unwrap();
    fs::remove_dir_all(folder).unwrap();
}

fn put_symbols() {
    for name in ["symbols", "symbols.txt"] {
        fs::write(name, "open shut held gate/1 row/2 gates/*").unwrap();
    }
}

/// Runs a command line with something to read, if anything; its status, and what it prints.
fn tried(line: usize, arguments: &[String], script: Option<&str>) -> (usize, String) {
    // Nothing is written outside the folder, whichever word is taken for an output.
    assert!(arguments.iter().all(|word| stays(word)), "{arguments:?}");
    let arguments: Vec<&str> = arguments.iter().map(String::as_str).collect();
    let look = Look { marks: line % 3 == 0, colour: line % 5 == 0, width: line % 120 };
    let (mut out, mut err, mut input) = (Vec::new(), Vec::new(), script.unwrap_or("").as_bytes());
    let mut console = Console::new(&mut out, &mut err, look);
    if script.is_some() {
        console = console.reading(&mut input, if line % 7 == 0 { "> " } else { "" });
    }
    let status = run(&arguments, &mut console);
    assert_eq!(status == 2, !err.is_empty(), "{arguments:?}");
    assert!(String::from_utf8(err).is_ok());
    (status.into(), String::from_utf8(out).unwrap())
}

#[test]
fn no_command_line_panics() {
    in_folder(|| {
        let (mut draw, mut statuses, mut explained) = (Draw::new(&[WORDS], CALLS), [0; 3], 0);
        for line in 0..LINES {
            if line % 100 == 0 {
                draw.files();
            }
            let (status, text) = tried(line, &draw.line(), None);
            explained += usize::from(text.contains("because "));
            statuses[status] += 1;
        }
        // Many come to something: a status of each kind, and a search that is explained.
        println!("statuses 0, 1, 2: {statuses:?}, explained: {explained}");
        assert!(statuses.iter().all(|&number| number > LINES / 20));
        assert!(explained > LINES / 50);
    });
}

#[test]
fn no_later_command_line_panics() {
    in_folder(|| {
        let mut draw = Draw::new(&[LATER_WORDS, WORDS], LATER_CALLS);
        let (mut statuses, mut forced, mut moved) = ([0; 3], 0, 0);
        for line in 0..LATER_LINES {
            if line % 100 == 0 {
                draw.files();
                draw.game();
            }
            let (arguments, script) = (draw.line(), draw.script());
            let (status, text) = tried(line, &arguments, Some(&script));
            forced += usize::from(text.contains("forced\u{1b}") || text.starts_with("forced: "));
            moved += usize::from(text.contains("kept ") && text.contains("bound"));
            statuses[status] += 1;
        }
        // Many come to something: a status of each kind, a game that is forced, and a session that
        // keeps states and moves on.
        println!("statuses 0, 1, 2: {statuses:?}, forced: {forced}, moved: {moved}");
        assert!(statuses.iter().all(|&number| number > LATER_LINES / 20));
        assert!(forced > LATER_LINES / 1_000);
        assert!(moved > LATER_LINES / 1_000);
    });
}
