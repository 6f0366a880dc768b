//! `pack` and `unpack`.

use crate::command::{wrong_call, Command};
use crate::explain::{numbered, stop};
use crate::files::{read_entries, write_sheet, Named};
use crate::folder::{FILES, TEXTS};
use crate::kind::Kind;
use crate::{editions, move_sheets};
use crate::{read, read_symbols, trouble, write, Console, Reply, Stop, ENGINE};
use interface::{edition_of, Edition, Outcome, Part, Word};
use notation::{Error, Symbols};

pub const PACK: Command = Command {
    name: "pack",
    usage: &[
        ("pack table SYMBOLS OUT", "write a table"),
        ("pack classes SYMBOLS OUT", "write its class list"),
        (
            "pack rules [--edition E] SYMBOLS TEXT OUT",
            "write a rule sheet, a line of text for each rule",
        ),
        (
            "pack states [--edition E] SYMBOLS TEXT OUT",
            "write a state sheet, a line of text for each state",
        ),
        (
            "pack moves [--edition E] SYMBOLS TEXT RULES TEMPLATES",
            "write the rules of moves and their templates as two sheets, a line of text for each \
             move",
        ),
        (
            "pack folder [--edition E] FOLDER",
            "write the three files of a report in a folder from its symbols.txt, rules.txt and \
             states.txt",
        ),
    ],
    help: "\
A report is made of table.bin, rules.bin and states.bin, which `pack folder`
writes. A table has at most 200 symbols, a rule sheet at most 64 rules of at
most 256 bytes, a state at most 4,096 bytes and a sheet at most 32,768. Rules
and states of a report have the same edition.
",
    run: pack,
};

pub const UNPACK: Command = Command {
    name: "unpack",
    usage: &[
        ("unpack classes SYMBOLS CLASSES", "print the symbols with the classes of a class list"),
        ("unpack rules SYMBOLS SHEET", "print the rules of a sheet, a line for each"),
        ("unpack states SYMBOLS SHEET", "print the states of a sheet, a line for each"),
        ("unpack moves SYMBOLS RULES TEMPLATES", "print the moves of two sheets, a line for each"),
    ],
    help: "",
    run: unpack,
};

fn pack(arguments: &[&str], _: &mut Console) -> Reply {
    let (edition, arguments) = editions::taken(arguments)?;
    let told = edition.unwrap_or(Edition::ONE);
    match (edition, &arguments[..]) {
        (None, ["table", symbols, out]) => pack_table(symbols, out),
        (None, ["classes", symbols, out]) => pack_classes(symbols, out),
        (_, ["rules", symbols, text, out]) => pack_sheet(Kind::Rule, told, symbols, text, out),
        (_, ["states", symbols, text, out]) => pack_sheet(Kind::State, told, symbols, text, out),
        (_, ["moves", symbols, text, rules, templates]) => {
            move_sheets::pack(told, symbols, text, [rules, templates])
        }
        (_, ["folder", folder]) => pack_folder(told, folder),
        _ => wrong_call("pack"),
    }
}

fn unpack(arguments: &[&str], _: &mut Console) -> Reply {
    match arguments {
        ["classes", symbols, list] => unpack_classes(symbols, list),
        ["rules", symbols, sheet] => unpack_sheet(Kind::Rule, symbols, sheet),
        ["states", symbols, sheet] => unpack_sheet(Kind::State, symbols, sheet),
        ["moves", symbols, rules, templates] => move_sheets::unpack(symbols, [rules, templates]),
        _ => wrong_call("unpack"),
    }
}

fn pack_table(symbols: &str, out: &str) -> Reply {
    write(out, read_symbols(symbols)?.table())
}

fn pack_classes(symbols: &str, out: &str) -> Reply {
    write(out, read_symbols(symbols)?.classes())
}

fn pack_sheet(kind: Kind, edition: Edition, symbols: &str, text: &str, out: &str) -> Reply {
    write_sheet(out, &sheet(kind, edition, &read_symbols(symbols)?, text)?)
}

/// The sheet that a text is packed to.
fn sheet(kind: Kind, edition: Edition, symbols: &Symbols, text: &str) -> Result<Vec<u8>, Stop> {
    let named = read_entries(text, kind, symbols)?;
    let entries: Vec<_> = named.iter().map(|entry| entry.bytes.clone()).collect();
    let sheet = kind.sheet(symbols.language(edition), &entries);
    let unspliced = |body: &str| kind.unspliced(symbols, &kind.parse(symbols, body).ok()?);
    sheet.or_else(|refused| refuse_line(text, refused, &named, unspliced))
}

/// Stops at a refusal of a text's entries; of an unspliced one the place in the text is told.
pub fn refuse_line<T, U>(
    path: &str,
    refused: Outcome,
    named: &[Named<U>],
    unspliced: impl Fn(&str) -> Option<Error>,
) -> Result<T, Stop> {
    let entry =
        named.get(refused.index as usize).filter(|_| refused.word() == Some(Word::Unspliced));
    match entry.and_then(|entry| Some((entry.line, unspliced(&entry.body)?))) {
        None => refuse(path, refused),
        Some((line, error)) => {
            Err(Stop::No(format!("{path}: {}, line {line}, {error}", numbered(Word::Unspliced))))
        }
    }
}

/// Writes the files of a report from the texts beside them, if all can be packed.
fn pack_folder(edition: Edition, folder: &str) -> Reply {
    let [symbols, rules, states] = TEXTS.map(|name| format!("{folder}/{name}"));
    let [table, rule_sheet, state_sheet] = FILES.map(|(name, _)| format!("{folder}/{name}"));
    let symbols = read_symbols(&symbols)?;
    let rules = sheet(Kind::Rule, edition, &symbols, &rules)?;
    let states = sheet(Kind::State, edition, &symbols, &states)?;
    Ok(write(&table, symbols.table())?
        + &write_sheet(&rule_sheet, &rules)?
        + &write_sheet(&state_sheet, &states)?)
}

fn unpack_classes(symbols: &str, path: &str) -> Reply {
    match read_symbols(symbols)?.with_classes(&read(path)?) {
        Ok(symbols) => Ok(format!("{symbols}\n")),
        Err(error) => Err(Stop::No(format!("{path}: {}, {error}", numbered(Word::Class)))),
    }
}

fn unpack_sheet(kind: Kind, symbols: &str, path: &str) -> Reply {
    let (symbols, sheet) = (read_symbols(symbols)?, read(path)?);
    accepted(path, kind.check(symbols.language(edition_of(&sheet)), &sheet))?;
    lines(path, &sheet, |entry| kind.show(&symbols, entry))
}

/// Where the entries of an accepted sheet lie.
pub fn parts(sheet: &[u8]) -> impl Iterator<Item = Part> + '_ {
    (0..).map(|index| ENGINE.0.entry(sheet, index)).take_while(|part| part.number == 0)
}

/// A line for each entry of an accepted sheet.
pub fn lines(path: &str, sheet: &[u8], show: impl Fn(&[u8]) -> Result<String, Error>) -> Reply {
    parts(sheet)
        .map(|part| match show(&sheet[part.range()]) {
            Ok(line) => Ok(line + "\n"),
            Err(error) => trouble(format!("{path}: {error}")),
        })
        .collect()
}

/// Stops at a refusal.
pub fn accepted(path: &str, outcome: Outcome) -> Result<(), Stop> {
    match outcome.number {
        0 => Ok(()),
        _ => refuse(path, outcome),
    }
}

/// Stops at a refusal of a sheet or of one of its entries.
pub fn refuse<T>(path: &str, refused: Outcome) -> Result<T, Stop> {
    stop(path, refused, &format!(", entry {}", refused.index))
}
