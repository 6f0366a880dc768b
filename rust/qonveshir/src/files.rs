//! Files.

use crate::kind::Kind;
use crate::{editions, trouble, Reply, Stop};
use interface::SHEET_LIMIT;
use notation::{Entry, Error, Symbols};
use std::collections::HashSet;
use std::fs::{self, File};
use std::io::{self, Read};
use std::path::Path;

/// Most bytes of a text; one of a full sheet has far fewer.
const TEXT_LIMIT: u64 = 1 << 24;

/// Reads bytes, of a file longer than any sheet only so many that it is seen to be too long.
pub fn read(path: &str) -> Result<Vec<u8>, Stop> {
    front(path, SHEET_LIMIT as u64 + 1).or_else(|error| trouble(format!("{path}: {error}")))
}

/// The first bytes of a file, at most so many.
pub fn front(path: &str, most: u64) -> io::Result<Vec<u8>> {
    let mut bytes = Vec::new();
    File::open(path)?.take(most).read_to_end(&mut bytes)?;
    Ok(bytes)
}

pub fn read_text(path: &str) -> Result<String, Stop> {
    let bytes = front(path, TEXT_LIMIT + 1).or_else(|error| trouble(format!("{path}: {error}")))?;
    if bytes.len() as u64 > TEXT_LIMIT {
        return trouble(format!("{path}: a text of over {TEXT_LIMIT} bytes"));
    }
    String::from_utf8(bytes).or_else(|error| trouble(format!("{path}: {error}")))
}

pub fn write(path: &str, bytes: &[u8]) -> Reply {
    put(path, bytes, "")
}

/// Writes a sheet, and says its edition too.
pub fn write_sheet(path: &str, sheet: &[u8]) -> Reply {
    put(path, sheet, editions::said(sheet))
}

fn put(path: &str, bytes: &[u8], said: &str) -> Reply {
    fs::write(path, bytes).or_else(|error| trouble(format!("{path}: {error}")))?;
    Ok(format!("{path}: {} bytes{said}\n", bytes.len()))
}

/// Reads symbols from the file of that name. If there is none, a text with a blank in it is taken
/// for the symbols themselves.
pub fn read_symbols(given: &str) -> Result<Symbols, Stop> {
    if given.contains(char::is_whitespace) && !Path::new(given).exists() {
        return Symbols::parse(given).or_else(|error| trouble(format!("symbols, {error}")));
    }
    let text = read_text(given)?;
    Symbols::parse(&text).or_else(|error| trouble(format!("{given}: {error}")))
}

/// An entry of a text file: its line, its name, if it has one, its text and its bytes.
pub struct Named<T = Vec<u8>> {
    pub line: usize,
    pub name: Option<String>,
    pub body: String,
    pub bytes: T,
}

/// The rules or states of a text file.
pub fn read_entries(path: &str, kind: Kind, symbols: &Symbols) -> Result<Vec<Named>, Stop> {
    read_lines(path, |body| Ok(kind.parse(symbols, body)?.bytes))
}

/// The entries of a text file. No two have one name.
pub fn read_lines<T>(
    path: &str,
    read: impl Fn(&str) -> Result<T, Error>,
) -> Result<Vec<Named<T>>, Stop> {
    let (text, mut names, mut entries) = (read_text(path)?, HashSet::new(), Vec::new());
    for Entry { line, name, body } in notation::entries(&text) {
        if let Some(name) = name.filter(|name| !names.insert(*name)) {
            return trouble(format!("{path}: line {line}: {name} names a line before"));
        }
        let bytes =
            read(&body).or_else(|error| trouble(format!("{path}: line {line}, {error}")))?;
        entries.push(Named { line, name: name.map(String::from), body, bytes });
    }
    Ok(entries)
}
