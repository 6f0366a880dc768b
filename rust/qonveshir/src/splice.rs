//! `splice`: rules, states and moves of edition 1 with lists within lists spliced, as edition 2 has
//! them.

use crate::command::{wrong_call, Command};
use crate::explain::stop;
use crate::files::{read_text, write_sheet};
use crate::kind::Kind;
use crate::sheets::{accepted, parts, refuse};
use crate::{read, read_symbols, trouble, write, Console, Reply, Stop};
use interface::{Edition, Outcome, EDITION_MARK};
use notation::{Entry, ParsedMove, Symbols, ARROW};

pub const SPLICE: Command = Command {
    name: "splice",
    usage: &[
        ("splice SYMBOLS RULE_OR_STATE", "print a rule, state or move spliced, given as text"),
        (
            "splice text SYMBOLS TEXT OUT",
            "write a text of rules, states or moves with each one spliced",
        ),
        ("splice rules SYMBOLS SHEET OUT", "write the rules of a sheet as one of edition 2"),
        ("splice states SYMBOLS SHEET OUT", "write the states of a sheet as one of edition 2"),
        ("splice record SYMBOLS FILE OUT", "write a record spliced"),
        ("splice pattern SYMBOLS FILE OUT", "write a pattern spliced"),
    ],
    help: "\
'gates(gates(open), shut)' is spliced to 'gates(open, shut)'. What is spliced
already stays as it is, and so do names and comments of a text. OUT may be the
file itself. A list that would come to over 255 elements is refused with 6.
",
    run: splice,
};

fn splice(arguments: &[&str], _: &mut Console) -> Reply {
    match arguments {
        [symbols, text] => splice_one(symbols, text),
        ["text", symbols, text, out] => splice_text(symbols, text, out),
        ["rules", symbols, sheet, out] => splice_sheet(Kind::Rule, symbols, sheet, out),
        ["states", symbols, sheet, out] => splice_sheet(Kind::State, symbols, sheet, out),
        ["pattern", symbols, file, out] => splice_file(Kind::Rule, symbols, file, out),
        ["record", symbols, file, out] => splice_file(Kind::State, symbols, file, out),
        _ => wrong_call("splice"),
    }
}

/// Prints a rule or state spliced.
fn splice_one(symbols: &str, text: &str) -> Reply {
    let symbols = read_symbols(symbols)?;
    let name = if text.contains(ARROW) { "move" } else { Kind::of(text).name() };
    Ok(spliced(&symbols, text).or_else(|fault| fault.stop(name))?.1 + "\n")
}

/// Why a text is not spliced.
enum Fault {
    Text(notation::Error),
    Refused(Outcome),
}

impl Fault {
    fn stop<T>(self, place: &str) -> Result<T, Stop> {
        match self {
            Fault::Text(error) => trouble(format!("{place}, {error}")),
            Fault::Refused(outcome) => stop(place, outcome, ""),
        }
    }
}

/// A rule, state or move given as text, spliced, and whether that changes it.
fn spliced(symbols: &Symbols, text: &str) -> Result<(bool, String), Fault> {
    if text.contains(ARROW) {
        return spliced_move(symbols, text);
    }
    let kind = Kind::of(text);
    let bytes = kind.parse(symbols, text).map_err(Fault::Text)?.bytes;
    let language = symbols.language(Edition::ONE);
    let spliced = kind.spliced(language, &bytes).map_err(Fault::Refused)?;
    Ok((spliced != bytes, kind.show(symbols, &spliced).map_err(Fault::Text)?))
}

fn spliced_move(symbols: &Symbols, text: &str) -> Result<(bool, String), Fault> {
    let ParsedMove { rule, template } = symbols.parsed_move(text).map_err(Fault::Text)?;
    let splice = |bytes: &[u8]| Kind::Rule.spliced(symbols.language(Edition::ONE), bytes);
    let [new_rule, new_template] = [&rule, &template].map(|part| splice(&part.bytes));
    let (new_rule, new_template) =
        (new_rule.map_err(Fault::Refused)?, new_template.map_err(Fault::Refused)?);
    let changed = (&new_rule, &new_template) != (&rule.bytes, &template.bytes);
    Ok((changed, symbols.show_move(&new_rule, &new_template).map_err(Fault::Text)?))
}

/// Writes a text with each rule, state or move spliced.
fn splice_text(symbols: &str, path: &str, out: &str) -> Reply {
    let (symbols, text) = (read_symbols(symbols)?, read_text(path)?);
    let mut lines = String::new();
    for (i, line) in text.split_inclusive('\n').enumerate() {
        let place = format!("{path}: line {}", i + 1);
        lines += &splice_line(&symbols, line).or_else(|fault| fault.stop(&place))?;
    }
    write(out, lines.as_bytes())
}

/// A line of a text with its rule or state spliced, if that changes it; all else stays.
fn splice_line(symbols: &Symbols, line: &str) -> Result<String, Fault> {
    let Some(Entry { body, .. }) = notation::entries(line).next() else { return Ok(line.into()) };
    let (changed, text) = spliced(symbols, &body)?;
    let (rule_or_state, code) = (body.trim(), line.split('#').next().unwrap_or(""));
    let start = code.trim_end().len() - rule_or_state.len();
    match changed {
        true => Ok(format!("{}{text}{}", &line[..start], &line[start + rule_or_state.len()..])),
        false => Ok(line.into()),
    }
}

/// Writes the entries of a sheet spliced, as a sheet of edition 2; they are read in edition 1.
fn splice_sheet(kind: Kind, symbols: &str, path: &str, out: &str) -> Reply {
    let (symbols, mut sheet) = (read_symbols(symbols)?, read(path)?);
    if let Some(count) = sheet.first_chunk_mut() {
        *count = (u16::from_le_bytes(*count) % EDITION_MARK).to_le_bytes();
    }
    let language = symbols.language(Edition::ONE);
    accepted(path, kind.check(language, &sheet))?;
    let entries: Result<Vec<_>, Outcome> = (0..)
        .zip(parts(&sheet))
        .map(|(index, part)| {
            let spliced = kind.spliced(language, &sheet[part.range()]);
            spliced.map_err(|refused| Outcome { index, ..refused })
        })
        .collect();
    let two = symbols.language(Edition::TWO);
    let written = entries.and_then(|entries| kind.sheet(two, &entries));
    write_sheet(out, &written.or_else(|refused| refuse(path, refused))?)
}

/// Writes a record or pattern spliced.
fn splice_file(kind: Kind, symbols: &str, path: &str, out: &str) -> Reply {
    let (symbols, bytes) = (read_symbols(symbols)?, read(path)?);
    let spliced = kind.spliced(symbols.language(Edition::ONE), &bytes);
    write(out, &spliced.or_else(|refused| stop(path, refused, ""))?)
}
