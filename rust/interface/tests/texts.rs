//! Header, Rust and Rattle have the same numbers, limits, structs and calls: their texts are read.

use interface::*;
use std::{fs, path::Path};

const ROOT: &str = concat!(env!("CARGO_MANIFEST_DIR"), "/../..");

fn read(file: &str) -> String {
    let path = Path::new(ROOT).join(file);
    fs::read_to_string(path).unwrap_or_else(|error| panic!("{file}: {error}"))
}

/// The code of a proved crate: all files of its `src`, by name.
fn code_of(name: &str) -> String {
    let folder = format!("crates/{name}/src");
    let files = fs::read_dir(Path::new(ROOT).join(&folder)).unwrap();
    let mut names: Vec<_> = files.map(|file| file.unwrap().file_name()).collect();
    names.sort();
    names.iter().map(|name| read(&format!("{folder}/{}", name.to_str().unwrap()))).collect()
}

/// The code of the proved crates, without comments.
fn rattle() -> String {
    let crates = [
        "answers",
        "byte_answers",
        "term",
        "reader",
        "parts",
        "search",
        "matcher",
        "plain",
        "cost",
        "sheet",
        "writing",
        "stored",
        "splice",
        "rules",
        "replace",
        "example",
        "station",
        "game",
        "qonveshir",
    ];
    uncommented(&crates.map(code_of).concat())
}

/// Code without its comments.
fn uncommented(code: &str) -> String {
    let lines = code.lines().filter(|line| !line.trim_start().starts_with("//"));
    lines.map(|line| format!("{line}\n")).collect()
}

/// What stands between two texts, wherever the one follows the other.
fn between<'a>(text: &'a str, before: &str, after: &str) -> Vec<&'a str> {
    text.split(before).skip(1).filter_map(|rest| Some(rest.split_once(after)?.0)).collect()
}

#[test]
fn numbers_of_the_header() {
    let text = read("include/qonveshir.h");
    let numbers = between(between(&text, "enum {", "};")[0], "QONVESHIR_", " /*");
    let numbers = numbers.iter().map(|line| line.trim_end_matches([',', ' ']).to_lowercase());
    let words = Word::ALL.iter().filter(|&&word| word != Word::Unread);
    let words = words.map(|word| match word {
        Word::Bound => "done = 0".into(),
        _ => format!("{} = {}", word.text().replace(' ', "_"), word.number()),
    });
    assert_eq!(numbers.collect::<Vec<_>>(), words.collect::<Vec<_>>());
}

#[test]
fn numbers_of_the_proved_crates() {
    let code = code_of("answers");
    let refusals = between(&code, "pub enum Refusal {", "\n}\n")[0];
    let refusals =
        refusals.lines().filter_map(|line| line.trim().trim_end_matches(',').split_once(" = "));
    let answers = between(&code, "fn number(self)", "\n    }\n")
        .into_iter()
        .flat_map(|body| between(body, "::", ",\n"))
        .filter_map(|arm| arm.split_once(" => "));
    let arms: Vec<(String, u32)> = refusals
        .chain(answers)
        .map(|(name, number)| (variant(name), value(&code, number) as u32))
        .collect();
    for word in Word::ALL {
        let name = if word == Word::Code { "badcode".into() } else { word.text().replace(' ', "") };
        let numbers: Vec<u32> =
            arms.iter().filter(|arm| arm.0 == name).map(|&(_, number)| number).collect();
        assert!(!numbers.is_empty(), "{name} has no number");
        assert!(numbers.iter().all(|&number| number == word.number()), "{name}: {numbers:?}");
    }
    let known = arms.iter().filter(|(_, number)| Word::of(*number).is_some());
    assert_eq!(known.count(), arms.len());
}

/// A variant's name, in small letters.
fn variant(name: &str) -> String {
    name.split('(').next().unwrap().to_lowercase()
}

/// The value of a Rattle constant: numbers and other constants, joined by `*` or `+`.
fn constant(code: &str, name: &str) -> u64 {
    let text = between(code, &format!("const {name}: "), ";");
    let text = text.first().unwrap_or_else(|| panic!("there is no constant {name}"));
    let sum = text.split_once(" = ").unwrap().1.split(" + ");
    let product = |part: &str| part.split(" * ").map(|factor| value(code, factor)).product::<u64>();
    sum.map(product).sum()
}

/// The value of a number or of a constant.
fn value(code: &str, text: &str) -> u64 {
    let name = text.split(" as ").next().unwrap().rsplit("::").next().unwrap();
    name.parse().unwrap_or_else(|_| constant(code, name))
}

/// The value of a constant of the header.
fn defined(header: &str, name: &str) -> u64 {
    let texts = between(header, &format!("#define {name} "), "\n");
    let [text] = texts[..] else { panic!("{name} is defined {} times", texts.len()) };
    computed(header, text)
}

/// The value of a product of the header, whose factors are sums of numbers and constants.
fn computed(header: &str, text: &str) -> u64 {
    let one = |name: &str| name.parse().unwrap_or_else(|_| defined(header, name));
    let sum = |text: &str| text.trim_matches(['(', ')']).split(" + ").map(one).sum::<u64>();
    text.split(" * ").map(sum).product()
}

#[test]
fn version() {
    let header = read("include/qonveshir.h");
    assert_eq!(between(&header, "#define QONVESHIR_VERSION \"", "\"\n"), [VERSION]);
    assert!(read("CHANGELOG.md").contains(&format!("\n## {VERSION}")), "{VERSION} in CHANGELOG.md");
}

#[test]
fn limits() {
    let (header, code) = (read("include/qonveshir.h"), rattle());
    for (name, limit, rattle) in [
        ("TABLE_LIMIT", TABLE_LIMIT, "LARGEST_TABLE"),
        ("PATTERN_LIMIT", PATTERN_LIMIT, "LONGEST_PATTERN"),
        ("RECORD_LIMIT", RECORD_LIMIT, "LONGEST_RECORD"),
        ("STORED_LIMIT", STORED_LIMIT, "LONGEST_STORED"),
        ("SHEET_LIMIT", SHEET_LIMIT, "LONGEST_SHEET"),
        ("EXAMPLE_LIMIT", EXAMPLE_LIMIT, "LARGEST_SIZE"),
        ("STATION", STATION_ROOM, "ROOM"),
        ("EDITION_MARK", EDITION_MARK.into(), "EDITION_MARK"),
        ("RULES_LIMIT", RULES_LIMIT, "MOST_RULES"),
        ("NESTING_LIMIT", NESTING_LIMIT, "NESTING"),
        ("AMPLE", AMPLE as usize, "AMPLE"),
        ("NAMES", NAMES, "NAMES"),
        ("VARIABLES", NAMES + RUNS, "VARIABLES"),
        ("ENTRY", ENTRY, "ENTRY_WIDTH"),
        ("ANSWER", ANSWER, "ANSWER_WIDTH"),
        ("ABSENT", ABSENT.into(), "NOWHERE"),
        ("NO_MOVE", NO_MOVE as usize, "NO_MOVE"),
        ("PASS", PASS as usize, "PASS"),
        ("TURNS_LIMIT", TURNS_LIMIT as usize, "MOST_TURNS"),
    ] {
        assert_eq!(defined(&header, &format!("QONVESHIR_{name}")), limit as u64, "{name}");
        assert_eq!(constant(&code, rattle), limit as u64, "{rattle}");
    }
    let narrow = format!("answer buffer under {ANSWER} numbers");
    assert!(header.contains(&narrow) && Word::Narrow.meaning() == narrow, "{narrow}");
}

/// The definition's own number; the proved code's is among the limits.
#[test]
fn ample() {
    assert_eq!(defined(&read("include/qonveshir.h"), "QONVESHIR_AMPLE"), AMPLE.into());
    let stated = between(&read("crates/anti_pattern/specs/Cost.antt"), "\nample = ", "\n").join("");
    assert_eq!(stated, AMPLE.to_string());
}

#[test]
fn codes() {
    let code = rattle();
    assert_eq!(constant(&code, "LIST"), LIST.into());
    assert_eq!(constant(&code, "MOST_CHILDREN"), CHILDREN_LIMIT.into());
    let decode = between(&code, "pub fn decode(", "\n}\n")[0];
    let last_run = FIRST_RUN as usize + RUNS - 1;
    for arm in [
        format!("0..={} => Code::Symbol", FIRST_NAME - 1),
        format!("{FIRST_NAME}..={} => Code::Name", FIRST_RUN - 1),
        format!("{FIRST_RUN}..={last_run} => Code::Run"),
        format!("{COMPLEMENT} => Code::Complement"),
    ] {
        assert!(decode.contains(&arm), "{arm}");
    }
}

#[test]
fn structs() {
    let header = read("include/qonveshir.h");
    let rust =
        ["lib", "station"].map(|name| read(&format!("rust/interface/src/{name}.rs"))).concat();
    for (c, name, home, rattle) in [
        ("qonveshir_outcome", "Outcome", "qonveshir", "Outcome"),
        ("qonveshir_written", "Written", "qonveshir", "Written"),
        ("qonveshir_part", "Part", "qonveshir", "Part"),
        ("qonveshir_station", "Labels", "station", "Station"),
    ] {
        let fields = between(&header, "typedef struct {", &format!("}} {c};"));
        let fields = fields.first().unwrap_or_else(|| panic!("there is no struct {c}"));
        let fields = fields.split(';').map(str::trim).filter(|text| !text.is_empty());
        let fields: Vec<String> = fields.map(|text| field(&header, text)).collect();
        for (text, name) in [(&rust, name), (&code_of(home), rattle)] {
            let lines = between(text, &format!("pub struct {name} {{\n"), "}")[0].lines();
            let lines = lines.map(|line| line.trim().trim_end_matches(','));
            let lines = lines.filter_map(|line| line.strip_prefix("pub "));
            let lines = lines.map(|line| match line.split_once("; ") {
                Some((kind, length)) => {
                    format!("{kind}; {}]", value(text, length.trim_end_matches(']')))
                }
                None => line.to_owned(),
            });
            assert_eq!(lines.collect::<Vec<_>>(), fields, "{name}");
        }
    }
    assert_eq!(defined(&header, "QONVESHIR_KEPT_LIMIT"), KEPT_LIMIT as u64);
    assert_eq!(Labels::default().names.len(), KEPT_LIMIT);
    assert_eq!(Labels::default().lengths.len(), KEPT_LIMIT + 1);
}

/// A field or parameter of the header, `uint32_t index`, as `index: u32`, and `uint16_t names[8]` as
/// `names: [u16; 8]`. A name that is a keyword of C++ has `_` behind it there.
fn field(header: &str, text: &str) -> String {
    let (name, number) = match text.trim_end_matches(']').split_once('[') {
        Some((text, number)) => (text, Some(computed(header, number))),
        None => (text, None),
    };
    let (kind, name) = name.rsplit_once(' ').unwrap();
    let (kind, name) = (kind.replace("uint", "u").replace("_t", ""), name.trim_end_matches('_'));
    match number {
        Some(number) => format!("{name}: [{kind}; {number}]"),
        None => format!("{name}: {kind}"),
    }
}

/// A call's name and parameters, slices as `table: const u8`, and what it shows.
type Call = (String, Vec<String>, String);

#[test]
fn calls() {
    let sorted = |mut calls: Vec<Call>| {
        calls.sort();
        calls
    };
    let header = header_calls(&read("include/qonveshir.h"));
    assert_eq!(header.len(), 39);
    // In the header's order, module by module.
    let modules = ["lib", "example_calls", "stations", "game_calls"];
    let code = modules.map(|name| read(&format!("crates/qonveshir/src/{name}.rt"))).concat();
    assert_eq!(rattle_calls(&uncommented(&code)), header);
    let header = sorted(header);
    assert_eq!(sorted(rattle_calls(&rattle())), header);
    let mut rust = rust_calls(&read("rust/proved/src/link.rs"));
    rust.extend(declared_calls(&read("rust/proved/src/game.rs")));
    assert_eq!(sorted(rust), header);
}

/// `qonveshir_outcome NAME(const uint8_t *table, size_t table_length, uint32_t index);`
fn header_calls(text: &str) -> Vec<Call> {
    let declarations = between(text, "\nqonveshir_", ";");
    let calls = declarations.into_iter().map(|declaration| {
        let (shown, call) = declaration.split_once(' ').unwrap();
        let (name, parameters) = call.trim_end_matches(')').split_once('(').unwrap();
        let mut slices: Vec<String> = Vec::new();
        for parameter in parameters.split(',').map(|parameter| field(text, parameter.trim())) {
            match parameter.strip_suffix("_length: size") {
                Some(name) => assert!(slices.last().unwrap().starts_with(&format!("{name}: "))),
                None => slices.push(lent(&parameter)),
            }
        }
        (name.to_owned(), slices, capital(shown))
    });
    calls.collect()
}

/// A pointer, `*table: const u8` or `*answer: u16`, as `table: const u8` or `answer: mut u16`; that
/// to a station as `station: mut Station`.
fn lent(parameter: &str) -> String {
    match parameter.strip_prefix('*') {
        Some(slice) if slice.contains("const") => slice.into(),
        Some(slice) => slice.replace("qonveshir_station", "Station").replace(": ", ": mut "),
        None => parameter.into(),
    }
}

fn capital(name: &str) -> String {
    name[..1].to_uppercase() + &name[1..]
}

/// `pub extern "C" fn NAME(table: &[u8], index: u32) -> Outcome`
fn rattle_calls(code: &str) -> Vec<Call> {
    let declarations = between(code, "pub extern \"C\" fn ", "\n    ensures");
    let calls = declarations.into_iter().map(|declaration| {
        let (call, shown) = declaration.rsplit_once(" -> ").unwrap();
        let (name, parameters) = call.trim_end_matches(')').split_once('(').unwrap();
        let parameters = parameters.split(',').map(str::trim).filter(|text| !text.is_empty());
        let kind = |text: &str| {
            let slice = text.replace("&mut [", "mut ").replace("&[", "const ").replace(']', "");
            slice.replace("&mut ", "mut ")
        };
        (name.to_owned(), parameters.map(kind).collect(), shown.to_owned())
    });
    calls.collect()
}

/// Both forms of each `safe = NAME(edition; pattern: u8; size, allowance; output: u8) -> Written;`,
/// and the calls that are declared whole. A station is lent as `&mut station`.
fn rust_calls(text: &str) -> Vec<Call> {
    let declarations = between(text, " = qonveshir_", ";\n");
    let calls = declarations.into_iter().flat_map(|declaration| {
        let (call, shown) = declaration.rsplit_once(") -> ").unwrap();
        let (name, parameters) = call.split_once('(').unwrap();
        let parts: Vec<Vec<&str>> = parameters
            .split(';')
            .map(|part| part.split(',').map(str::trim).filter(|text| !text.is_empty()).collect())
            .collect();
        let slice = |mark: &str, text: &str| text.replace(": ", &format!(": {mark} "));
        let number = |text: &&str| format!("{text}: u32");
        let inputs = parts[1].iter().map(|text| slice("const", text));
        let numbers = parts[2].iter().map(number);
        let outputs = parts[3].iter().map(|text| match *text {
            "&mut station" => "station: mut Station".into(),
            text => slice("mut", text),
        });
        let rest: Vec<String> = inputs.chain(numbers).chain(outputs).collect();
        let [table, classes] = ["table", "classes"].map(|name| vec![format!("{name}: const u8")]);
        let edition = parts[0].iter().map(number).collect();
        let call = |form: &str, first: Vec<Vec<String>>| {
            (format!("qonveshir_{name}{form}"), first.concat(), shown.to_owned())
        };
        [
            call("", vec![table.clone(), rest.clone()]),
            call("_in", vec![edition, table, classes, rest]),
        ]
    });
    calls.chain(declared_calls(text)).collect()
}

/// `#[link_name = concat!($prefix, "NAME")] fn any(table: *const u8, _: usize, index: u32) -> Outcome;`
fn declared_calls(text: &str) -> Vec<Call> {
    let declarations = between(text, "concat!($prefix, \"", ";\n");
    let calls = declarations.into_iter().map(|declaration| {
        let (name, rest) = declaration.split_once('"').unwrap();
        let (_, rest) = rest.split_once(" fn ").unwrap().1.split_once('(').unwrap();
        let (parameters, shown) = rest.rsplit_once(") -> ").unwrap();
        let parameters = parameters.split(',').map(str::trim);
        let parameters = parameters.filter(|text| !text.is_empty() && *text != "_: usize");
        let kind = |text: &str| text.replace('*', "").replace("Labels", "Station");
        (name.to_owned(), parameters.map(kind).collect(), shown.to_owned())
    });
    calls.collect()
}
