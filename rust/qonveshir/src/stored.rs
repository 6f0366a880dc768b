//! `store` and `restore`: records in the stored form and back, alone or those of a sheet.

use crate::command::{wrong_call, Command};
use crate::editions;
use crate::explain::stop;
use crate::files::{read_text, write_sheet};
use crate::kind::{written, Kind};
use crate::sheets::{accepted, lines, refuse};
use crate::{read, read_symbols, trouble, write, Console, Reply, ENGINE};
use interface::{edition_of, Edition, Language, Outcome, RECORD_LIMIT, STORED_LIMIT};

pub const STORE: Command = Command {
    name: "store",
    usage: &[
        ("store record [--edition E] SYMBOLS FILE OUT", "write a record in the stored form"),
        (
            "store states SYMBOLS SHEET OUT",
            "write the states of a sheet in the stored form, a line of hexadecimal digits for each",
        ),
    ],
    help: FORM,
    run: store_of,
};

pub const RESTORE: Command = Command {
    name: "restore",
    usage: &[
        ("restore record [--edition E] SYMBOLS FILE OUT", "write a stored record as a record"),
        ("restore states [--edition E] SYMBOLS TEXT OUT", "write such lines as a state sheet"),
    ],
    help: FORM,
    run: restore_of,
};

const FORM: &str = "\
In the stored form a list tells the length in bytes of all its children, in two
bytes behind its number of children, low byte first. A stored record has at most
8,192 bytes.
";

fn store_of(arguments: &[&str], _: &mut Console) -> Reply {
    let (edition, arguments) = editions::taken(arguments)?;
    match (edition, &arguments[..]) {
        (_, ["record", symbols, record, out]) => {
            one(stored, edition.unwrap_or(Edition::ONE), symbols, record, out)
        }
        (None, ["states", symbols, sheet, out]) => store_states(symbols, sheet, out),
        _ => wrong_call("store"),
    }
}

fn restore_of(arguments: &[&str], _: &mut Console) -> Reply {
    let (edition, arguments) = editions::taken(arguments)?;
    let edition = edition.unwrap_or(Edition::ONE);
    match &arguments[..] {
        ["record", symbols, record, out] => one(restored, edition, symbols, record, out),
        ["states", symbols, text, out] => restore_states(edition, symbols, text, out),
        _ => wrong_call("restore"),
    }
}

/// Moves a record from one form to the other.
type Move = fn(Language, &[u8]) -> Result<Vec<u8>, Outcome>;

fn one(moved: Move, edition: Edition, symbols: &str, record: &str, out: &str) -> Reply {
    let (symbols, bytes) = (read_symbols(symbols)?, read(record)?);
    let moved = moved(symbols.language(edition), &bytes);
    write(out, &moved.or_else(|refused| stop(record, refused, ""))?)
}

/// Writes a line of hexadecimal digits for each state of a sheet.
fn store_states(symbols: &str, path: &str, out: &str) -> Reply {
    let (symbols, sheet) = (read_symbols(symbols)?, read(path)?);
    let language = symbols.language(edition_of(&sheet));
    accepted(path, ENGINE.0.check_states(language, &sheet))?;
    let text = lines(path, &sheet, |state| {
        let bytes = stored(language, state).expect("an accepted record has a stored form");
        Ok(bytes.iter().map(|byte| format!("{byte:02X}")).collect())
    })?;
    write(out, text.as_bytes())
}

/// Writes a sheet of the states that such lines stand for.
fn restore_states(edition: Edition, symbols: &str, path: &str, out: &str) -> Reply {
    let (symbols, text) = (read_symbols(symbols)?, read_text(path)?);
    let (language, mut states) = (symbols.language(edition), Vec::new());
    for (i, line) in text.lines().enumerate().filter(|(_, line)| !line.trim().is_empty()) {
        let place = format!("{path}: line {}", i + 1);
        let Some(bytes) = digits(line.trim()) else {
            return trouble(format!("{place}: expected pairs of hexadecimal digits"));
        };
        states.push(restored(language, &bytes).or_else(|refused| stop(&place, refused, ""))?);
    }
    let sheet = Kind::State.sheet(language, &states);
    write_sheet(out, &sheet.or_else(|refused| refuse(path, refused))?)
}

/// The bytes that hexadecimal digits stand for.
fn digits(text: &str) -> Option<Vec<u8>> {
    let pairs = text.as_bytes().chunks(2).map(|pair| std::str::from_utf8(pair).ok());
    pairs.map(|pair| pair.filter(|pair| pair.len() == 2).map(byte)?).collect()
}

fn byte(pair: &str) -> Option<u8> {
    let plain = pair.bytes().all(|digit| digit.is_ascii_hexdigit());
    u8::from_str_radix(pair, 16).ok().filter(|_| plain)
}

fn stored(language: Language, record: &[u8]) -> Result<Vec<u8>, Outcome> {
    let mut output = vec![0; STORED_LIMIT];
    written(ENGINE.0.store(language, record, &mut output), output)
}

fn restored(language: Language, record: &[u8]) -> Result<Vec<u8>, Outcome> {
    let mut output = vec![0; RECORD_LIMIT];
    written(ENGINE.0.restore(language, record, &mut output), output)
}
