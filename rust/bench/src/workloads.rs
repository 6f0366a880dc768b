//! The named workloads.

use crate::{editions, examples, games, replaces, stations};
use interface::{
    sheet_of, Answers, Edition, Language, Library, Word, ANSWER, LIST, RECORD_LIMIT, STORED_LIMIT,
};
use notation::Symbols;
use reference::Reference;
use std::{cell::RefCell, iter};

/// One call, or a fixed number of calls, at one size. Buffers are not cleared between runs.
pub struct Workload {
    pub name: &'static str,
    pub n: usize,
    /// The header's call.
    pub call: &'static str,
    /// What the cost is divided by, and how many of them one run has.
    pub unit: &'static str,
    pub units: u64,
    pub run: Run,
}

type Run = Box<dyn Fn(&dyn Library)>;

/// Every workload at every size, sizes of one name side by side.
pub fn all() -> Vec<Workload> {
    let lists = [10, 20, 40, 80, 120, 255];
    let bytes = [1_024, 4_096, 16_384, 32_768];
    let rules = [1, 4, 16, 64];
    let mut all = vec![smallest_call()];
    all.extend(lists.map(all_different).map(Match::search));
    all.extend(lists.map(list_search).map(Match::search));
    all.extend(STEPS.map(all_alike).map(Match::search));
    all.extend(STEPS.map(last_differs).map(Match::search));
    all.extend([10, 40, 120].map(terms_of_five).map(Match::search));
    all.extend([10, 40, 120].map(three_runs).map(Match::search));
    all.extend([4, 8, 16, 31].map(deep_term).map(Match::search));
    all.extend([4, 8, 16, 31, 255].map(deep_complement).map(Match::search));
    all.extend([1, 32, 255].map(long_record_complement));
    all.extend([256, 1_024, 4_096].map(record));
    all.extend([256, 1_024, 4_096].map(record_search).map(Match::search));
    all.extend([10, 20, 40, 60].map(every_answer));
    all.extend(rules.map(|n| rule_sheet("rule sheet over 1,000 states", n, false)));
    all.extend(bytes.map(read_states));
    all.extend(rules.map(read_rules));
    all.extend([18, 66, 254].map(cost));
    all.extend(bytes.map(read_entry));
    all.extend(bytes.map(write_sheet));
    all.extend(with_classes());
    all.extend(stored());
    all.extend(plains());
    all.extend(editions::all());
    all.extend(replaces::all());
    all.extend(examples::all());
    all.extend(stations::all());
    all.extend(games::all());
    all
}

/// Workloads of the matches up to class: each symbol its own class, or two spellings of each.
fn with_classes() -> Vec<Workload> {
    let (lists, bytes) = ([10, 40, 120], [256, 1_024, 4_096]);
    let own = |name: &'static str| move |one: Match| one.own_classes(name).search();
    let shared = |name: &'static str| move |one: Match| one.shared_classes(name).search();
    let mut all = Vec::new();
    all.extend(lists.map(all_different).map(own("all different, own classes")));
    all.extend(lists.map(all_different).map(shared("all different, shared classes")));
    all.extend(lists.map(list_search).map(own("list search, own classes")));
    all.extend(lists.map(list_search).map(shared("list search, shared classes")));
    all.extend(bytes.map(record_search).map(own("list within a list, own classes")));
    all.extend(bytes.map(record_search).map(shared("list within a list, shared classes")));
    all.extend([4, 64].map(|n| rule_sheet("rule sheet, shared classes", n, true)));
    all
}

/// Plain rules by the plain tier, each beside the full search on the same input.
fn plains() -> Vec<Workload> {
    let lists = [10, 20, 80, 250];
    let mut pairs: Vec<[Workload; 2]> = Vec::new();
    let symbol = Match::of("", 1, "open", "shut");
    pairs.push(symbol.beside(["plain: a symbol that differs", "full: a symbol that differs"]));
    let row = Match::of("", 3, "row(?0, open)", "row(held, open)");
    pairs.push(row.beside(["plain: row(?0, open)", "full: row(?0, open)"]));
    for n in lists {
        let list = |last: &str| format!("gates({}{last})", "open, ".repeat(n - 1));
        let one = Match::of("", n, "gates(@0, held)", &list("held"));
        pairs.push(one.beside(["plain: run name, then a symbol", "full: run name, then a symbol"]));
        let one = Match::of("", n, "gates(held, @0)", &list("held"));
        pairs.push(one.beside(["plain: first symbol differs", "full: first symbol differs"]));
        let one = Match::of("", n, &list("?0"), &list("held"));
        pairs.push(one.beside(["plain: a child pattern each", "full: a child pattern each"]));
        let one = Match::of("", n, "gates(open, shut)", &list("held"));
        pairs.push(one.beside(["plain: another number", "full: another number"]));
        let rule = format!("gates({}@0)", "open, ".repeat(n - 2));
        let one = Match::of("", n, &rule, &list("held"));
        pairs.push(
            one.beside(["plain: symbols, then a run name", "full: symbols, then a run name"]),
        );
    }
    let mut all: Vec<Workload> = pairs.into_iter().flatten().collect();
    all.sort_by_key(|one| one.name);
    all
}

/// The lengths of lists between which the time of a step is compared.
const STEPS: [usize; 4] = [10, 40, 120, 255];

/// The start of the matches on lists of those lengths.
pub fn starts() -> Vec<Workload> {
    let matches = [all_different, list_search, all_alike, last_differs].map(|of| STEPS.map(of));
    matches.into_iter().flatten().map(Match::start).collect()
}

pub fn symbols() -> Symbols {
    let leaves: Vec<String> = (0..16).map(|i| format!("g{i}")).collect();
    let text = format!("{} open shut held gate/1 row/2 gates/*", leaves.join(" "));
    Symbols::parse(&text).expect("the table is right")
}

/// A pattern against a record, up to class if there is a class list.
struct Match {
    name: &'static str,
    n: usize,
    table: Vec<u8>,
    classes: Option<Vec<u8>>,
    pattern: Vec<u8>,
    record: Vec<u8>,
}

impl Match {
    /// A match of texts.
    fn of(name: &'static str, n: usize, pattern: &str, record: &str) -> Self {
        let symbols = symbols();
        let pattern = symbols.pattern(pattern).expect("the pattern is right");
        let record = symbols.term(record).expect("the record is right");
        Match { name, n, table: symbols.table().to_vec(), classes: None, pattern, record }
    }

    /// The same with a class list in which each symbol is its own class.
    fn own_classes(self, name: &'static str) -> Self {
        let own = (0..self.table.len() as u8).collect();
        Match { name, classes: Some(own), ..self }
    }

    /// The same with two spellings of each symbol, in turn in the record.
    fn shared_classes(self, name: &'static str) -> Self {
        let record = respelled(&self.table, self.record);
        let (table, classes) = spelled_twice(&self.table);
        Match { name, table, classes: Some(classes), record, ..self }
    }

    /// Every check and the search, measured by counted steps.
    fn search(self) -> Workload {
        let (outcome, _) = Reference.find(self.language(), &self.pattern, &self.record, u32::MAX);
        self.call(u32::MAX, ("step", outcome.count))
    }

    /// The call of the plain tier, and that of the full search on the same input.
    fn beside(self, [plain, full]: [&'static str; 2]) -> [Workload; 2] {
        let Match { n, table, pattern, record, .. } = &self;
        let (n, answer) = (*n, RefCell::new([0; ANSWER]));
        let (table, pattern, record) = (table.clone(), pattern.clone(), record.clone());
        let run = Box::new(move |library: &dyn Library| {
            let language = Language::simple(&table);
            library.match_plain(language, &pattern, &record, &mut *answer.borrow_mut());
        });
        let call = "qonveshir_match_plain";
        let tier = Workload { name: plain, n, call, unit: "call", units: 1, run };
        [tier, Match { name: full, ..self }.call(u32::MAX, ("call", 1))]
    }

    /// Every check and the start of the search, which has no allowance for a step.
    fn start(self) -> Workload {
        self.call(0, ("call", 1))
    }

    fn call(self, allowance: u32, (unit, units): (&'static str, u64)) -> Workload {
        let Match { name, n, .. } = self;
        let call = match self.classes {
            None => "qonveshir_match",
            Some(_) => "qonveshir_match_in",
        };
        let answer = RefCell::new([0; ANSWER]);
        let run = Box::new(move |library: &dyn Library| {
            let answer = &mut *answer.borrow_mut();
            library.match_one(self.language(), &self.pattern, &self.record, allowance, answer);
        });
        Workload { name, n, call, unit, units, run }
    }

    fn language(&self) -> Language<'_> {
        Language { classes: self.classes.as_deref(), ..Language::simple(&self.table) }
    }
}

/// A table with each symbol once more, and the class list by which both mean the same.
fn spelled_twice(table: &[u8]) -> (Vec<u8>, Vec<u8>) {
    let own: Vec<u8> = (0..table.len() as u8).collect();
    (table.repeat(2), own.repeat(2))
}

/// A record with every other symbol in its second spelling.
fn respelled(table: &[u8], mut record: Vec<u8>) -> Vec<u8> {
    let (mut at, mut second) = (0, false);
    while let Some(symbol) = record.get_mut(at) {
        at += if table[usize::from(*symbol)] == LIST { 2 } else { 1 };
        *symbol += if second { table.len() as u8 } else { 0 };
        second = !second;
    }
    record
}

fn smallest_call() -> Workload {
    let [table, pattern, record] = [0; 3].map(|byte| vec![byte]);
    let one = Match { name: "smallest call", n: 1, table, classes: None, pattern, record };
    one.call(u32::MAX, ("call", 1))
}

fn all_different(n: usize) -> Match {
    let gates: Vec<String> = (0..n).map(|i| format!("row(g{}, g{})", i / 16, i % 16)).collect();
    let record = format!("gates({})", gates.join(", "));
    Match::of("all different", n, "!gates(@0, ?0, @1, ?0, @2)", &record)
}

fn list_search(n: usize) -> Match {
    let record = format!("gates({}shut)", "open, ".repeat(n - 1));
    Match::of("list search with a complement", n, "gates(@0, !open, @1)", &record)
}

fn all_alike(n: usize) -> Match {
    let record = format!("gates({})", vec!["open"; n].join(", "));
    Match::of("list search, all alike", n, "gates(@0, shut, @1)", &record)
}

fn last_differs(n: usize) -> Match {
    let record = format!("gates({}shut)", "open, ".repeat(n - 1));
    Match::of("list search, the last differs", n, "gates(@0, shut, @1)", &record)
}

/// The same with terms of five nodes before the last.
fn terms_of_five(n: usize) -> Match {
    let record = format!("gates({}shut)", "row(gate(open), gate(held)), ".repeat(n - 1));
    Match::of("list search in terms of 5", n, "gates(@0, shut, @1)", &record)
}

fn three_runs(n: usize) -> Match {
    let record = format!("gates({})", vec!["open"; n].join(", "));
    Match::of("three runs", n, "gates(@0, @1, shut, @2)", &record)
}

fn deep_term(n: usize) -> Match {
    let nested = |last: &str| format!("{}{last}{}", "gate(".repeat(n), ")".repeat(n));
    Match::of("deep term", n, &nested("?0"), &nested("open"))
}

fn deep_complement(n: usize) -> Match {
    Match::of("deep complement", n, &format!("{}?0", "!".repeat(n)), "open")
}

/// A record of 4,096 bytes under n complements and a name, which takes it whole.
fn long_record_complement(n: usize) -> Workload {
    let symbols = symbols();
    let pattern = symbols.pattern(&format!("{}?0", "!".repeat(n))).expect("a rule");
    let (name, table) = ("deep complement, long record", symbols.table().to_vec());
    let whole = Match { name, n, table, classes: None, pattern, record: full(RECORD_LIMIT) };
    whole.call(u32::MAX, ("byte", RECORD_LIMIT as u64))
}

/// Reading a record of n bytes, which a lone name takes whole.
fn record(n: usize) -> Workload {
    let (table, classes, pattern) = (symbols().table().to_vec(), None, vec![200]);
    let name = "long record, one name";
    let whole = Match { name, n, table, classes, pattern, record: full(n) };
    whole.call(u32::MAX, ("byte", n as u64))
}

/// Going through the lists of a record of n bytes for what is in none of them.
fn record_search(n: usize) -> Match {
    let symbols = symbols();
    let pattern = symbols.pattern("gates(@0, gates(@1, row(shut, ?0), @2), @3)").expect("a rule");
    let (name, table) = ("long record, list within a list", symbols.table().to_vec());
    Match { name, n, table, classes: None, pattern, record: full(n) }
}

/// All answers of three run names on a list of n elements: the match, then the next until none.
fn every_answer(n: usize) -> Workload {
    let record = format!("gates({})", vec!["open"; n].join(", "));
    let Match { name, table, pattern, record, .. } =
        Match::of("every answer", n, "gates(@0, @1, @2)", &record);
    // Found out before, so that a library whose answers have another width is run alike.
    let (lengths, steps) = run_lengths(&table, &pattern, &record);
    let all = ((n + 1) * (n + 2) / 2, steps);
    let answer = RefCell::new([0; ANSWER]);
    let run = Box::new(move |library: &dyn Library| {
        let answer = &mut *answer.borrow_mut();
        let language = Language::simple(&table);
        let first = library.match_one(language, &pattern, &record, u32::MAX, answer);
        let next =
            |given: &Vec<u16>| library.next(language, &pattern, &record, given, u32::MAX, answer);
        let found = iter::once(first).chain(lengths.iter().map(next));
        let listed = found.fold((0, 0), |(answers, steps), outcome| {
            (answers + usize::from(outcome.word() == Some(Word::Bound)), steps + outcome.count)
        });
        assert_eq!(listed, all);
    });
    Workload { name, n, call: "qonveshir_next", unit: "step", units: steps, run }
}

/// The run lengths of every answer, and the steps of all calls.
fn run_lengths(table: &[u8], pattern: &[u8], record: &[u8]) -> (Vec<Vec<u16>>, u64) {
    let language = Language::simple(table);
    let mut answers = Answers::new(&Reference, language, pattern, record, u32::MAX);
    let mut lengths = Vec::new();
    while answers.next().is_some() {
        lengths.extend(answers.lengths().map(<[u16]>::to_vec));
    }
    (lengths, answers.counted())
}

/// A record of n bytes: lists of leaves and pairs within a list.
pub fn full(n: usize) -> Vec<u8> {
    let symbols = symbols();
    let code = |name| symbols.code(name).expect("the table has the symbol");
    let (open, row, gates) = (code("open"), code("row"), code("gates"));
    let mut record = vec![gates, 0];
    while record.len() < n {
        record[1] += 1;
        let rest = n - record.len();
        match rest {
            1 => record.push(open),
            2 => record.extend([gates, 0]),
            _ if rest < 65 => {
                record.extend([gates, (rest - 2) as u8]);
                record.extend(vec![open; rest - 2]);
            }
            _ => {
                record.extend([gates, 30]);
                record.extend([row, open, open].repeat(15));
                record.extend([open; 15]);
            }
        }
    }
    record
}

/// A sheet of n rules over 1,000 states, which may have two spellings of each symbol in turn.
fn rule_sheet(name: &'static str, n: usize, twice: bool) -> Workload {
    let symbols = symbols();
    let table = symbols.table();
    let states = (0..1_000).map(|i| symbols.term(&state(i)).expect("a state"));
    let states: Vec<_> =
        states.map(|state| if twice { respelled(table, state) } else { state }).collect();
    let (rules, (doubled, classes)) = (rules(&symbols, n), spelled_twice(table));
    let (table, call) = match twice {
        false => (table.to_vec(), "qonveshir_match_rules"),
        true => (doubled, "qonveshir_match_rules_in"),
    };
    let answer = RefCell::new([0; ANSWER]);
    let steps = move |library: &dyn Library| {
        let answer = &mut *answer.borrow_mut();
        let classes = twice.then_some(&classes[..]);
        let language = Language { classes, ..Language::simple(&table) };
        let one = |state: &Vec<u8>| library.match_rules(language, &rules, state, 100_000, answer);
        states.iter().map(one).map(|outcome| outcome.count).sum::<u64>()
    };
    let units = steps(&Reference);
    let run = Box::new(move |library: &dyn Library| assert_eq!(steps(library), units));
    Workload { name, n, call, unit: "step", units, run }
}

/// A sheet of n rules.
fn rules(symbols: &Symbols, n: usize) -> Vec<u8> {
    let kinds =
        ["row(!?0, ?0)", "gates(@0, gA, @1, gB, @2)", "row(gA, !gB)", "gates(@0, ?0, ?0, @1)"];
    let rule = |i: usize| {
        let text = kinds[i % 4].replace("gA", &format!("g{}", i / 4));
        symbols.pattern(&text.replace("gB", &format!("g{}", 15 - i / 4))).expect("a rule")
    };
    sheet_of(Edition::ONE, &(0..n).map(rule).collect::<Vec<_>>())
}

/// One of many small states, most of which few rules hold of.
fn state(i: usize) -> String {
    let gate = |k: usize| format!("g{}", (i * 7 + k * 5 + i / 16) % 16);
    match i % 3 {
        0 => format!("row({0}, {0})", gate(0)),
        1 => format!("gates({}, {}, {}, {})", gate(0), gate(1), gate(2), gate(3)),
        _ => format!("gate({})", gate(0)),
    }
}

/// Records whose sheet takes n bytes.
fn records(n: usize) -> Vec<Vec<u8>> {
    let number = n / 128;
    let mut records = vec![full(124); number];
    records[number - 1] = full(122);
    records
}

fn read_states(n: usize) -> Workload {
    let (table, sheet) = (symbols().table().to_vec(), sheet_of(Edition::ONE, &records(n)));
    assert_eq!(sheet.len(), n);
    let run = Box::new(move |library: &dyn Library| {
        assert_eq!(library.check_states(Language::simple(&table), &sheet).number, 0);
    });
    let call = "qonveshir_check_states";
    Workload { name: "state sheet reader", n, call, unit: "byte", units: n as u64, run }
}

/// The rule of which rule sheets are full; lists stand in lists below complements alone.
pub fn read_rule() -> Vec<u8> {
    let rule = format!("gates({}@1)", "@0, row(!?0, ?1), !gates(g1, @2), ".repeat(15));
    symbols().pattern(&rule).expect("a rule")
}

fn read_rules(n: usize) -> Workload {
    let table = symbols().table().to_vec();
    let sheet = sheet_of(Edition::ONE, &vec![read_rule(); n]);
    let units = sheet.len() as u64;
    let run = Box::new(move |library: &dyn Library| {
        assert_eq!(library.check_rules(Language::simple(&table), &sheet).number, 0);
    });
    let call = "qonveshir_check_rules";
    Workload { name: "rule sheet reader", n, call, unit: "byte", units, run }
}

/// The cost of a pattern of n bytes, a list of rows of four bytes each.
fn cost(n: usize) -> Workload {
    let symbols = symbols();
    let rows = vec!["row(!?0, ?1)"; (n - 2) / 4].join(", ");
    let pattern = symbols.pattern(&format!("gates({rows})")).expect("a rule");
    assert_eq!(pattern.len(), n);
    let (table, nodes) = (symbols.table().to_vec(), n as u64 - 1);
    let run = Box::new(move |library: &dyn Library| {
        assert_eq!(library.cost(Language::simple(&table), &pattern).count, nodes);
    });
    let call = "qonveshir_cost";
    Workload { name: "cost of a pattern", n, call, unit: "byte", units: n as u64, run }
}

/// The place of the last entry, for which the whole directory is checked.
fn read_entry(n: usize) -> Workload {
    let records = records(n);
    let (last, sheet) = (records.len() as u32 - 1, sheet_of(Edition::ONE, &records));
    let run = Box::new(move |library: &dyn Library| {
        assert_eq!(library.entry(&sheet, last).number, 0);
    });
    let call = "qonveshir_entry";
    Workload { name: "entry reader", n, call, unit: "entry", units: u64::from(last) + 1, run }
}

fn write_sheet(n: usize) -> Workload {
    let records = records(n);
    let lengths: Vec<u16> = records.iter().map(|record| record.len() as u16).collect();
    let (table, records) = (symbols().table().to_vec(), records.concat());
    let output = RefCell::new(vec![0; n]);
    let run = Box::new(move |library: &dyn Library| {
        let output = &mut output.borrow_mut();
        let language = Language::simple(&table);
        assert_eq!(library.write_sheet(language, &records, &lengths, output).number, 0);
    });
    let call = "qonveshir_write_sheet";
    Workload { name: "writer", n, call, unit: "byte", units: n as u64, run }
}

/// Moves to the stored form and back, of lists within a list and of lists nested 32 deep.
fn stored() -> Vec<Workload> {
    let bytes = [256, 1_024, 4_096];
    let table = || symbols().table().to_vec();
    let store = |name, record| store_in(Edition::ONE, table(), name, record);
    let restore = |name, record| restore_in(Edition::ONE, table(), name, record);
    let mut all = Vec::new();
    all.extend(bytes.map(|n| store("store, lists within a list", full(n))));
    all.extend(bytes.map(|n| store("store, nesting 2", lists(n, false))));
    all.extend(bytes.map(|n| store("store, nesting 32", lists(n, true))));
    all.extend(bytes.map(|n| restore("restore, lists within a list", full(n))));
    all.extend(bytes.map(|n| restore("restore, nesting 2", lists(n, false))));
    all.extend(bytes.map(|n| restore("restore, nesting 32", lists(n, true))));
    all
}

/// A record of n bytes, of 31 lists with as many leaves in each: each within the one before, or
/// all others within the first.
pub fn lists(n: usize, nested: bool) -> Vec<u8> {
    let table = symbols().table().to_vec();
    let list = table.iter().position(|&children| children == LIST).expect("there is a list") as u8;
    let (lists, leaves) = (31, n - 2 * 31);
    let mut record = Vec::new();
    for level in 0..lists {
        let own = leaves / lists + usize::from(level < leaves % lists);
        let within = match (nested, level) {
            (true, _) => usize::from(level + 1 < lists),
            (false, 0) => lists - 1,
            (false, _) => 0,
        };
        record.extend([list, (own + within) as u8]);
        record.extend(vec![0; own]);
    }
    record
}

/// A move to the stored form over a table, in an edition.
pub fn store_in(edition: Edition, table: Vec<u8>, name: &'static str, record: Vec<u8>) -> Workload {
    let (n, output) = (record.len(), RefCell::new(vec![0; STORED_LIMIT]));
    let call = if edition == Edition::ONE { "qonveshir_store" } else { "qonveshir_store_in" };
    let run = Box::new(move |library: &dyn Library| {
        let language = Language::simple(&table).in_edition(edition);
        let outcome = library.store(language, &record, &mut output.borrow_mut());
        debug_assert_eq!(outcome.number, 0);
    });
    Workload { name, n, call, unit: "byte", units: n as u64, run }
}

/// The move back.
pub fn restore_in(
    edition: Edition,
    table: Vec<u8>,
    name: &'static str,
    record: Vec<u8>,
) -> Workload {
    let (n, output) = (record.len(), RefCell::new(vec![0; RECORD_LIMIT]));
    let mut stored = vec![0; STORED_LIMIT];
    let length = Reference.store(Language::simple(&table), &record, &mut stored).count as usize;
    stored.truncate(length);
    let call = if edition == Edition::ONE { "qonveshir_restore" } else { "qonveshir_restore_in" };
    let run = Box::new(move |library: &dyn Library| {
        let language = Language::simple(&table).in_edition(edition);
        let outcome = library.restore(language, &stored, &mut output.borrow_mut());
        debug_assert_eq!(outcome.number, 0);
    });
    Workload { name, n, call, unit: "byte", units: n as u64, run }
}
