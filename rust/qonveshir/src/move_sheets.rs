//! Moves as two sheets, of rules and of templates: `pack moves` and `unpack moves`.

use crate::explain::numbered;
use crate::files::{read_lines, write_sheet, Named};
use crate::kind::Kind;
use crate::moves::loose;
use crate::sheets::{accepted, parts, refuse, refuse_line};
use crate::{read, read_symbols, trouble, Reply, Stop, ENGINE};
use interface::{edition_of, Edition, Outcome, Word};
use notation::{Error, ParsedMove, Symbols};

/// The moves of a text, and their sheets, of rules and of templates.
pub struct Moves {
    pub named: Vec<Named<[Vec<u8>; 2]>>,
    pub sheets: [Vec<u8>; 2],
}

/// Writes the rules and the templates of a text of moves, if all can be packed.
pub fn pack(edition: Edition, symbols: &str, path: &str, outs: [&str; 2]) -> Reply {
    let [rules, templates] = read_moves(edition, &read_symbols(symbols)?, path)?.sheets;
    Ok(write_sheet(outs[0], &rules)? + &write_sheet(outs[1], &templates)?)
}

/// Reads a text of moves, if all can be packed.
pub fn read_moves(edition: Edition, symbols: &Symbols, path: &str) -> Result<Moves, Stop> {
    let language = symbols.language(edition);
    let named = read_lines(path, |body| Ok(bytes(symbols.parsed_move(body)?)))?;
    let [rules, templates] = [0, 1].map(|part| sheet(edition, symbols, path, &named, part));
    let sheets = [rules?, templates?];
    for Named { line, body, bytes: [rule, template], .. } in &named {
        if ENGINE.0.is_loose(language, rule, template) {
            let place = symbols.parsed_move(body).ok().and_then(|parts| loose(language, &parts));
            let place = place.map(|error| format!(", {error}")).unwrap_or_default();
            return Err(Stop::No(format!("{path}: {}, line {line}{place}", numbered(Word::Loose))));
        }
    }
    Ok(Moves { named, sheets })
}

fn bytes(parts: ParsedMove) -> [Vec<u8>; 2] {
    [parts.rule.bytes, parts.template.bytes]
}

/// The sheet of one part of the moves.
fn sheet(
    edition: Edition,
    symbols: &Symbols,
    path: &str,
    named: &[Named<[Vec<u8>; 2]>],
    part: usize,
) -> Result<Vec<u8>, Stop> {
    let entries: Vec<_> = named.iter().map(|entry| entry.bytes[part].clone()).collect();
    let unspliced = |body: &str| {
        let ParsedMove { rule, template } = symbols.parsed_move(body).ok()?;
        Kind::Rule.unspliced(symbols, [&rule, &template][part])
    };
    let sheet = Kind::Rule.sheet(symbols.language(edition), &entries);
    sheet.or_else(|refused| refuse_line(path, refused, named, unspliced))
}

/// Prints the moves that two sheets hold, a line for each.
pub fn unpack(symbols: &str, paths: [&str; 2]) -> Reply {
    let symbols = read_symbols(symbols)?;
    let [rules, templates] = paths.map(read);
    let (rules, templates) = (rules?, templates?);
    let (language, later) = (symbols.language(edition_of(&rules)), paths[1]);
    accepted(paths[0], Kind::Rule.check(language, &rules))?;
    accepted(later, Kind::Rule.check(language, &templates))?;
    let unlike = edition_of(&templates) != language.edition;
    if unlike || parts(&rules).count() != parts(&templates).count() {
        let expected = "as many templates as rules, in their edition";
        return Err(Stop::No(format!(
            "{later}: {}: expected {expected}",
            numbered(Word::Directory)
        )));
    }
    let mut text = String::new();
    for (index, (rule, template)) in (0..).zip(parts(&rules).zip(parts(&templates))) {
        let (rule, template) = (&rules[rule.range()], &templates[template.range()]);
        if ENGINE.0.is_loose(language, rule, template) {
            return refuse(later, Outcome::refused(Word::Loose, index));
        }
        let line: Result<String, Error> = symbols.show_move(rule, template);
        text += &(line.or_else(|error| trouble(format!("{later}: {error}")))? + "\n");
    }
    Ok(text)
}
