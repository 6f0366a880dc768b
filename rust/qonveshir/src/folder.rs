//! The files of a report in their folder.

use crate::files::{front, read_entries, read_symbols, Named};
use crate::kind::Kind;
use crate::{trouble, Stop, ENGINE};
use interface::{edition_of, Language, Outcome, Word, SHEET_LIMIT};
use notation::Symbols;
use std::path::Path;

/// The three files in the order of their checks, each with the word that a refusal has for it.
pub const FILES: [(&str, &str); 3] =
    [("table.bin", "table"), ("rules.bin", "rules"), ("states.bin", "states")];

/// The texts that they are packed from.
pub const TEXTS: [&str; 3] = ["symbols.txt", "rules.txt", "states.txt"];

/// The files of a folder, each with its bytes or why it can't be read.
pub struct Folder {
    pub path: String,
    files: [Result<Vec<u8>, String>; 3],
}

impl Folder {
    /// Reads the files.
    pub fn read(path: &str) -> Folder {
        let file = |(name, _)| {
            let path = format!("{path}/{name}");
            front(&path, SHEET_LIMIT as u64 + 1).map_err(|error| error.to_string())
        };
        Folder { path: path.into(), files: FILES.map(file) }
    }

    /// The bytes of a file, or why it can't be read.
    pub fn file(&self, file: usize) -> Result<&[u8], &str> {
        self.files[file].as_deref().map_err(String::as_str)
    }

    /// The bytes of the three files, where they could be read.
    pub fn bytes(&self) -> Option<[&[u8]; 3]> {
        let [table, rules, states] = &self.files;
        Some([table.as_ref().ok()?, rules.as_ref().ok()?, states.as_ref().ok()?])
    }

    /// What the report says of one file, if those before are accepted.
    pub fn verdict(&self, file: usize) -> Outcome {
        let unread = Outcome::refused(Word::Unread, 0);
        let (Ok(table), Ok(bytes)) = (self.file(0), self.file(file)) else { return unread };
        match file {
            // No rules: what is refused then is the table.
            0 => ENGINE.0.check_rules(Language::simple(table), &[0, 0]),
            1 => ENGINE.0.check_rules(Language::simple(table), bytes),
            _ if self.unlike(bytes) => Outcome::refused(Word::Directory, 0),
            _ => ENGINE.0.check_states(Language::simple(table), bytes),
        }
    }

    /// Whether states within their limit have another edition than accepted rules.
    fn unlike(&self, states: &[u8]) -> bool {
        let accepted = self.verdict(1).number == 0 && states.len() <= SHEET_LIMIT;
        let rules = self.file(1).map(edition_of);
        accepted && rules.is_ok_and(|edition| edition != edition_of(states))
    }

    /// The first refusal, as the report has it.
    pub fn refusal(&self) -> Option<String> {
        (0..FILES.len()).find_map(|file| {
            let Outcome { number, index, .. } = self.verdict(file);
            (number != 0).then(|| format!("refused {number} {} {index}", FILES[file].1))
        })
    }

    /// The names of rules and states, by the texts in the folder.
    pub fn names(&self) -> Result<Names, Stop> {
        let [symbols, rules, states] = TEXTS.map(|name| format!("{}/{name}", self.path));
        let symbols = read_symbols(&symbols)?;
        self.agrees(0, symbols.table(), TEXTS[0])?;
        let read_rules = read_entries(&rules, Kind::Rule, &symbols)?;
        self.agrees(1, &self.sheet(1, &read_rules), TEXTS[1])?;
        let mut read_states = Vec::new();
        if Path::new(&states).exists() {
            read_states = read_entries(&states, Kind::State, &symbols)?;
            self.agrees(2, &self.sheet(2, &read_states), TEXTS[2])?;
        }
        let names = |entries: Vec<Named>| entries.into_iter().map(|entry| entry.name).collect();
        Ok(Names { symbols, rules: names(read_rules), states: names(read_states) })
    }

    /// A sheet of entries in the edition of a file.
    fn sheet(&self, file: usize, entries: &[Named]) -> Vec<u8> {
        let entries: Vec<_> = entries.iter().map(|entry| entry.bytes.clone()).collect();
        interface::sheet_of(edition_of(self.file(file).unwrap_or(&[])), &entries)
    }

    /// Whether a file is what a text comes to.
    fn agrees(&self, file: usize, packed: &[u8], text: &str) -> Result<(), Stop> {
        match self.file(file) == Ok(packed) {
            true => Ok(()),
            false => {
                trouble(format!("{}: {} is not what {text} is packed to", self.path, FILES[file].0))
            }
        }
    }
}

/// What the rules and states of a folder are called.
pub struct Names {
    symbols: Symbols,
    rules: Vec<Option<String>>,
    states: Vec<Option<String>>,
}

impl Names {
    /// A rule's name, or its notation without blanks.
    pub fn rule(&self, index: usize, pattern: &[u8]) -> Result<String, notation::Error> {
        named(&self.rules, index, || self.symbols.show_pattern(pattern))
    }

    /// A state's name, or its notation without blanks.
    pub fn state(&self, index: usize, record: &[u8]) -> Result<String, notation::Error> {
        named(&self.states, index, || self.symbols.show_term(record))
    }
}

fn named(
    names: &[Option<String>],
    index: usize,
    show: impl Fn() -> Result<String, notation::Error>,
) -> Result<String, notation::Error> {
    match names.get(index) {
        Some(Some(name)) => Ok(name.clone()),
        _ => Ok(show()?.replace(' ', "")),
    }
}
