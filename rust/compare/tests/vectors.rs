//! Runs the vectors of `crates/vectors` that are one of the library's calls, by each library, and
//! compares what is answered with the outcome that the line states. `QONVESHIR_VECTORS` names
//! another folder.

use interface::{
    Edition, Labels, Language, Library, Outcome, Side, Word, Written, ABSENT, ANSWER, EDITION_MARK,
    ENTRY, NAMES, RUNS,
};
use reference::{Reference, Shortcuts};
use std::{collections::BTreeMap, env, fs, path::PathBuf};

const FILES: [&str; 15] = [
    "matches.txt",
    "classes.txt",
    "complements.txt",
    "nexts.txt",
    "plains.txt",
    "costs.txt",
    "rules.txt",
    "sheets.txt",
    "stored.txt",
    "editions.txt",
    "splices.txt",
    "replacements.txt",
    "examples.txt",
    "stations.txt",
    "games.txt",
];

/// Most bytes that are lent for the records of a station.
const SPACE: usize = 40_960;

#[test]
fn every_vector_by_stepping() {
    every_vector_by(&Reference);
}

#[test]
fn every_vector_with_shortcuts() {
    every_vector_by(&Shortcuts);
}

#[cfg(feature = "link")]
#[test]
fn every_vector_by_the_proved_library() {
    every_vector_by(&proved::Proved);
}

fn every_vector_by(library: &dyn Library) {
    let folder = env::var_os("QONVESHIR_VECTORS").map_or_else(
        || PathBuf::from(env!("CARGO_MANIFEST_DIR")).join("../../crates/vectors/data"),
        PathBuf::from,
    );
    let mut run = BTreeMap::new();
    for name in FILES {
        let path = folder.join(name);
        let text = fs::read_to_string(&path).unwrap_or_else(|e| panic!("{}: {e}", path.display()));
        for line in text.lines().filter(|line| !line.is_empty() && !line.starts_with('#')) {
            let (call, stated) = line.split_once(" = ").expect(line);
            let words: Vec<&str> = call.split(' ').collect();
            if let Some(answered) = outcome(library, words[1], &words[2..], stated) {
                assert_eq!(answered, stated, "{line}");
                *run.entry(words[1].to_string()).or_insert(0) += 1;
            }
        }
    }
    let calls = [
        "apply",
        "apply_in",
        "check_rules",
        "check_rules_in",
        "check_states",
        "check_states_in",
        "cost_in",
        "cost_of",
        "example",
        "example_in",
        "look",
        "look_in",
        "match_in",
        "match_one",
        "match_plain",
        "match_plain_in",
        "match_rules",
        "match_rules_in",
        "next",
        "next_in",
        "place_of",
        "play",
        "play_in",
        "restore",
        "restore_in",
        "splice_pattern",
        "splice_pattern_in",
        "splice_record",
        "splice_record_in",
        "station_apply",
        "station_apply_in",
        "station_keep",
        "station_new",
        "station_new_in",
        "station_return",
        "store",
        "store_in",
        "write_sheet",
        "write_sheet_in",
    ];
    assert!(run.keys().eq(calls), "calls that were run: {run:?}");
    assert!(run["match_one"] >= 1_000, "only {} matches", run["match_one"]);
}

/// A line's call without `_in`, its language, and the fields after it.
struct Told<'a> {
    call: &'a str,
    edition: Edition,
    table: Vec<u8>,
    classes: Option<Vec<u8>>,
    fields: &'a [&'a str],
}

/// The calls with a class list that are not told the edition.
const UNTOLD: [&str; 6] =
    ["match_rules", "check_rules", "check_states", "splice_record", "splice_pattern", "play"];

impl<'a> Told<'a> {
    /// Nothing where there are too few fields.
    fn new(call: &'a str, fields: &'a [&'a str]) -> Option<Self> {
        let Some(call) = call.strip_suffix("_in") else {
            let (table, fields) = fields.split_first()?;
            let (edition, table) = (Edition::ONE, bytes(table));
            return Some(Told { call, edition, table, classes: None, fields });
        };
        let (edition, fields) = match fields {
            fields if UNTOLD.contains(&call) => (Edition::ONE, fields),
            [edition, fields @ ..] => (Edition(number(edition)), fields),
            [] => return None,
        };
        let [table, classes, fields @ ..] = fields else { return None };
        let (table, classes) = (bytes(table), Some(bytes(classes)));
        Some(Told { call, edition, table, classes, fields })
    }

    fn language(&self) -> Language<'_> {
        let classes = self.classes.as_deref();
        Language { table: &self.table, classes, edition: self.edition }
    }
}

/// What is answered, as a line states it, or nothing where it is none of the calls.
fn outcome(library: &dyn Library, call: &str, fields: &[&str], stated: &str) -> Option<String> {
    if let ("place_of", [sheet, index]) = (call, fields) {
        return Some(place(library, &bytes(sheet), number(index)));
    }
    if let ("play" | "play_in", [turns, fields @ ..]) = (call, fields) {
        return played(library, number(turns), &Told::new(call, fields)?);
    }
    if let ("station_keep" | "station_return", [name, held @ ..]) = (call, fields) {
        let name = name.parse().expect(name);
        return Some(changed(held, stated, |station, records| match call {
            "station_keep" => library.station_keep(name, station, records),
            _ => library.station_return(name, station, records),
        }));
    }
    let told = Told::new(call, fields)?;
    let language = told.language();
    Some(match (told.call, told.fields) {
        ("cost_of" | "cost", [pattern]) => cost(library.cost(language, &bytes(pattern))),
        ("check_rules", [sheet]) => {
            checked(&bytes(sheet), |sheet| library.check_rules(language, sheet))
        }
        ("check_states", [sheet]) => {
            checked(&bytes(sheet), |sheet| library.check_states(language, sheet))
        }
        ("write_sheet", [records, lengths, room]) => {
            let (records, lengths) = (bytes(records), list(lengths));
            let write = |out: &mut [u8]| library.write_sheet(language, &records, &lengths, out);
            written(number(room), true, stated, write)
        }
        ("store" | "restore" | "splice_record" | "splice_pattern", [from, room]) => {
            let from = bytes(from);
            written(number(room), false, stated, |output| match told.call {
                "store" => library.store(language, &from, output),
                "restore" => library.restore(language, &from, output),
                "splice_record" => library.splice_record(language, &from, output),
                _ => library.splice_pattern(language, &from, output),
            })
        }
        ("apply", [rule, template, record, allowance, room]) => {
            let (p, t, r) = (bytes(rule), bytes(template), bytes(record));
            applied(number(room), stated, |output| {
                library.apply(language, &p, &t, &r, number(allowance), output)
            })
        }
        ("look", [rule, template, record, allowance]) => {
            let (p, t, r) = (bytes(rule), bytes(template), bytes(record));
            looked(library.look(language, &p, &t, &r, number(allowance)))
        }
        ("example", [pattern, size, allowance, room]) => {
            let pattern = bytes(pattern);
            applied(number(room), stated, |output| {
                library.example(language, &pattern, number(size), number(allowance), output)
            })
        }
        ("station_new", [record, held @ ..]) => {
            let record = bytes(record);
            changed(held, stated, |station, records| {
                library.station_new(language, &record, station, records)
            })
        }
        ("station_apply", [rule, template, allowance, held @ ..]) => {
            let (p, t, allowance) = (bytes(rule), bytes(template), number(allowance));
            on_station(held, stated, |station, records| {
                let answer = library.station_apply(language, &p, &t, allowance, station, records);
                (answer.number == 0, looked(answer))
            })
        }
        _ => return found(library, &told),
    })
}

/// The outcome of a new station, a keep or a return.
fn changed(
    held: &[&str],
    stated: &str,
    change: impl Fn(&mut Labels, &mut [u8]) -> Outcome,
) -> String {
    on_station(held, stated, |station, records| {
        let outcome = change(station, records);
        assert_eq!((outcome.index, outcome.count), (0, 0), "index and count");
        match outcome.number {
            0 => (true, "done".to_string()),
            number => (false, format!("refused {number}")),
        }
    })
}

/// The outcome of a call on a station, with the station after it as stated where that stands for it.
/// A call that does nothing must leave it.
fn on_station(
    held: &[&str],
    stated: &str,
    call: impl Fn(&mut Labels, &mut [u8]) -> (bool, String),
) -> String {
    let [before @ .., room] = held else { panic!("{held:?}") };
    let (mut station, mut records) = station(before);
    let (done, outcome) = call(&mut station, &mut records[..number(room) as usize]);
    if !done {
        assert!((station, records) == self::station(before), "a station that must stay");
        return outcome;
    }
    match stated.strip_prefix(&format!("{outcome} ")) {
        Some(text) if self::station(&text.split(' ').collect::<Vec<_>>()) == (station, records) => {
            stated.to_string()
        }
        _ => format!("{outcome}, another station: {station:?}"),
    }
}

/// A station and the bytes of its records; those after the bytes stated are FA.
fn station(fields: &[&str]) -> (Labels, Vec<u8>) {
    let [kept, names, lengths, records] = fields else { panic!("{fields:?}") };
    let mut records = bytes(records);
    records.resize(SPACE, 250);
    let (names, lengths) = (list(names), list(lengths));
    let (names, lengths) = (names.try_into().unwrap(), lengths.try_into().unwrap());
    (Labels { kept: kept.parse().expect(kept), names, lengths }, records)
}

/// The outcome of a game.
fn played(library: &dyn Library, turns: u32, told: &Told) -> Option<String> {
    let [sheets_goal_and_record @ .., allowance] = told.fields else { return None };
    let read: Vec<Vec<u8>> = sheets_goal_and_record.iter().map(|field| bytes(field)).collect();
    let [rules, templates, sender_rules, sender_templates, goal, record] = &read[..] else {
        return None;
    };
    let loader = Side { rules, templates };
    let sender = Side { rules: sender_rules, templates: sender_templates };
    let (language, allowance) = (told.language(), number(allowance));
    let outcome = library.play(turns, language, loader, sender, goal, record, allowance);
    let (shown, index, count) = match outcome.word().unwrap() {
        Word::Bound => (format!("forced {}", outcome.index), outcome.index, 0),
        Word::None => ("none".to_string(), 0, 0),
        Word::Spent => (format!("spent {}", outcome.count), 0, outcome.count),
        word => (format!("refused {} {}", word.number(), outcome.index), outcome.index, 0),
    };
    assert_eq!((outcome.index, outcome.count), (index, count), "index and count");
    Some(shown)
}

/// The outcome of a call of the match.
fn found(library: &dyn Library, told: &Told) -> Option<String> {
    let [rule, record, numbers @ ..] = told.fields else { return None };
    let (language, p, r) = (told.language(), bytes(rule), bytes(record));
    Some(match (told.call, numbers) {
        ("match_one" | "match", [allowance, width]) => matched(number(width), false, |answer| {
            library.match_one(language, &p, &r, number(allowance), answer)
        }),
        ("next", [given, allowance, width]) => matched(number(width), false, |answer| {
            library.next(language, &p, &r, &list(given), number(allowance), answer)
        }),
        ("match_plain", [width]) => {
            matched(number(width), false, |answer| library.match_plain(language, &p, &r, answer))
        }
        ("match_rules", [allowance, width]) => matched(number(width), true, |answer| {
            library.match_rules(language, &p, &r, number(allowance), answer)
        }),
        _ => return None,
    })
}

/// Where an entry lies.
fn place(library: &dyn Library, sheet: &[u8], index: u32) -> String {
    let part = library.entry(sheet, index);
    match part.number {
        0 => format!("at {} {}", part.offset, part.length),
        number => format!("refused {number}"),
    }
}

/// The outcome of a match with a buffer of so many numbers; that of a rule sheet shows an index.
fn matched(width: u32, rules: bool, find: impl Fn(&mut [u16]) -> Outcome) -> String {
    let before: Vec<u16> = (0..width as u16).map(|i| 1_000 + i).collect();
    let mut answer = before.clone();
    let outcome = find(&mut answer);
    let written = if outcome.number == 0 { ANSWER } else { 0 };
    assert_eq!(answer[written..], before[written..], "numbers that must stay");
    let index = if rules { format!(" {}", outcome.index) } else { String::new() };
    match outcome.word().unwrap() {
        Word::Bound => format!("bound{index} {}{}", outcome.count, parts(&answer)),
        word @ (Word::None | Word::Spent) => format!("{}{index} {}", word.text(), outcome.count),
        word => format!("refused {}{index}", word.number()),
    }
}

/// The outcome of a cost.
fn cost(outcome: Outcome) -> String {
    match outcome.word().unwrap() {
        word @ (Word::Bound | Word::None) => format!("{} {}", word.text(), outcome.count),
        word => format!("refused {}", word.number()),
    }
}

/// The free names and run names with offset, length and number of terms.
fn parts(answer: &[u16]) -> String {
    let marks = (0..NAMES).map(|i| format!("?{i}")).chain((0..RUNS).map(|j| format!("@{j}")));
    let entries = answer.chunks_exact(ENTRY).zip(marks).filter(|(one, _)| one != &[ABSENT, 0, 0]);
    entries.map(|(one, mark)| format!(" {mark}={}+{}:{}", one[0], one[1], one[2])).collect()
}

/// The outcome of a check. The number of entries, which the call doesn't show, is the sheet's own.
fn checked(sheet: &[u8], check: impl Fn(&[u8]) -> Outcome) -> String {
    let outcome = check(sheet);
    match outcome.number {
        0 => format!("accepted {}", u16::from_le_bytes([sheet[0], sheet[1]]) % EDITION_MARK),
        number => format!("refused {number} {}", outcome.index),
    }
}

/// The outcome of a writing with so much room; that of a sheet's refusal shows an index.
fn written(room: u32, sheet: bool, stated: &str, write: impl Fn(&mut [u8]) -> Outcome) -> String {
    let before = vec![250; room as usize];
    let mut output = before.clone();
    let outcome = write(&mut output);
    let size = outcome.count as usize;
    assert_eq!(output[size..], before[size..], "bytes that must stay");
    if outcome.number != 0 {
        let index = if sheet { format!(" {}", outcome.index) } else { String::new() };
        return format!("refused {}{index}", outcome.number);
    }
    as_stated(format!("written {size}"), &output[..size], stated)
}

/// The outcome of applying with so much room.
fn applied(room: u32, stated: &str, apply: impl Fn(&mut [u8]) -> Written) -> String {
    let before = vec![250; room as usize];
    let mut output = before.clone();
    let answer = apply(&mut output);
    let size = answer.length as usize;
    assert_eq!(output[size..], before[size..], "bytes that must stay");
    match answer.number {
        0 => as_stated(looked(answer), &output[..size], stated),
        _ => looked(answer),
    }
}

/// The outcome of a look.
fn looked(answer: Written) -> String {
    match answer.word().unwrap() {
        Word::Bound => format!("bound {} {}", answer.count, answer.length),
        word @ (Word::None | Word::Spent) => format!("{} {}", word.text(), answer.count),
        word => format!("refused {}", word.number()),
    }
}

/// The outcome with what is written after it, as stated where that stands for it.
fn as_stated(outcome: String, output: &[u8], stated: &str) -> String {
    match stated.strip_prefix(&format!("{outcome} ")) {
        Some(text) if bytes(text) == output => format!("{outcome} {text}"),
        _ => format!("{outcome} another output"),
    }
}

fn number(text: &str) -> u32 {
    text.parse().expect(text)
}

/// Bytes in hexadecimal, `-` for none; `00(237)` is 237 bytes of 00, and `[258,1,64]` the pairs of
/// 64 entries of one byte, the first at offset 258.
fn bytes(text: &str) -> Vec<u8> {
    let mut bytes = Vec::new();
    let mut rest = if text == "-" { "" } else { text };
    while !rest.is_empty() {
        if let Some((pairs, later)) = rest.strip_prefix('[').and_then(|r| r.split_once(']')) {
            let [offset, length, times] = list(pairs)[..] else { panic!("{text}") };
            for i in 0..times {
                bytes.extend((offset + i * length).to_le_bytes());
                bytes.extend(length.to_le_bytes());
            }
            rest = later;
            continue;
        }
        let byte = u8::from_str_radix(&rest[..2], 16).expect(text);
        let (times, later) = repeated(&rest[2..]);
        bytes.extend((0..times).map(|_| byte));
        rest = later;
    }
    bytes
}

/// A list of numbers, `-` for none; `1(63),2` is 63 times 1, then 2.
fn list(text: &str) -> Vec<u16> {
    let items = text.split(',').filter(|item| *item != "-");
    let times = |item: &str| repeated(&item[item.find('(').unwrap_or(item.len())..]).0;
    let value = |item: &str| item.split('(').next().unwrap().parse().expect(text);
    items.flat_map(|item| (0..times(item)).map(move |_| value(item))).collect()
}

/// The number in brackets at the start of a text, or 1, and what comes after it.
fn repeated(text: &str) -> (usize, &str) {
    match text.strip_prefix('(').and_then(|rest| rest.split_once(')')) {
        Some((times, later)) => (times.parse().expect(text), later),
        None => (1, text),
    }
}
