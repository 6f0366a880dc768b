//! The random cases of each call.

use crate::case::{Call, Case, Kind};
use crate::make::{damaged_sheet, table, Maker};
use crate::nexts::Search;
use crate::rng::Rng;
use crate::skips::skip_case;
use crate::told::{Forms, Told};
use crate::{examples, games, plains, replaces, splices, stations, stored};
use interface::{
    sheet_of, Answer, Edition, Language, Library, Outcome, Word, ANSWER, FIRST_NAME, FIRST_RUN,
    SHEET_LIMIT, STORED_LIMIT,
};

/// Makes a case over a table; the library gives the count that allowances are taken around.
type Make = fn(&mut Rng, Vec<u8>, &dyn Library) -> Case;

/// How often a case of each kind is made.
const MAKERS: [(usize, Make); 22] = [
    (40, match_case),
    (60, next_case),
    (28, rules_case),
    (28, write_case),
    (6, entry_case),
    (30, check_rules_case),
    (18, check_states_case),
    (28, cost_case),
    (16, skips),
    (24, stored::store_case),
    (38, stored::restore_case),
    (30, plain_case),
    (16, splices::record_case),
    (18, splices::pattern_case),
    (32, replaces::apply_case),
    (30, replaces::look_case),
    (56, examples::example_case),
    (18, stations::new_case),
    (8, stations::keep_case),
    (8, stations::return_case),
    (40, stations::apply_case),
    (48, games::case),
];

/// A case; `library` gives the count that allowances are taken around.
pub fn case(rng: &mut Rng, library: &dyn Library) -> Case {
    let table = table(rng);
    let mut place = rng.below(MAKERS.iter().map(|(weight, _)| weight).sum());
    let mut makers = MAKERS.iter().copied();
    loop {
        let (weight, make) = makers.next().expect("the place is within the sum");
        if place < weight {
            return make(rng, table, library);
        }
        place -= weight;
    }
}

fn match_case(rng: &mut Rng, table: Vec<u8>, library: &dyn Library) -> Case {
    let made = made(rng, table, library, [Call::Match, Call::MatchIn], pair);
    let (number, kinds) = allowance(rng, made.found.0);
    Case { number, room: room(rng), ..made.case(rng, kinds) }
}

fn skips(rng: &mut Rng, table: Vec<u8>, library: &dyn Library) -> Case {
    match skip_case(rng, table.clone()) {
        Some(case) => case,
        None => match_case(rng, table, library),
    }
}

fn plain_case(rng: &mut Rng, table: Vec<u8>, library: &dyn Library) -> Case {
    let made = made(rng, table, library, [Call::Plain, Call::PlainIn], plains::pair);
    let kinds = plains::kinds(made.told.table(), &made.pattern, &made.record, made.found);
    Case { room: room(rng), ..made.case(rng, kinds) }
}

fn next_case(rng: &mut Rng, table: Vec<u8>, library: &dyn Library) -> Case {
    let made = made(rng, table, library, [Call::Next, Call::NextIn], pair_with_runs);
    let language = made.told.language();
    let pair = Search { library, language, pattern: &made.pattern, record: &made.record };
    let (lengths, found, kind) = pair.given(rng);
    let (number, mut kinds) = allowance(rng, found);
    kinds.extend(kind);
    Case { lengths, number, room: room(rng), ..made.case(rng, kinds) }
}

fn cost_case(rng: &mut Rng, table: Vec<u8>, library: &dyn Library) -> Case {
    let told = Told::new(rng, table, [Call::Cost, Call::CostIn], false);
    let ((pattern, _), kind) = mended(rng, &told, library, pair);
    let mut kinds = told.kinds(&[&pattern]);
    kinds.extend(kind);
    told.case(rng, vec![pattern], kinds)
}

/// What a match is made of.
pub struct Made {
    pub told: Told,
    pub pattern: Vec<u8>,
    pub record: Vec<u8>,
    /// What it comes to with the allowance [`MOST`].
    pub found: (Outcome, Answer),
    pub kinds: Vec<Kind>,
}

impl Made {
    /// The case, with further kinds.
    fn case(self, rng: &mut Rng, kinds: Vec<Kind>) -> Case {
        let Made { told, pattern, record, .. } = self;
        told.case(rng, vec![pattern, record], [self.kinds, kinds].concat())
    }
}

/// A match of a pair that is made so.
pub fn made(
    rng: &mut Rng,
    table: Vec<u8>,
    library: &dyn Library,
    forms: Forms,
    pair: MakePair,
) -> Made {
    let by_sheet = forms[0] == Call::Rules;
    let told = Told::new(rng, table, forms, by_sheet);
    let compared = told.brings() && told.edition == Edition::ONE && rng.chance(30);
    let twins = if compared { told.classes.twins(rng) } else { None };
    let (pattern, record, kind) = match twins {
        Some((pattern, record, kind)) => (pattern, record, Some(kind)),
        None => {
            let ((pattern, record), kind) = mended(rng, &told, library, pair);
            (pattern, told.classes.exchanged(rng, record), kind)
        }
    };
    let find = |language: Language| library.find(language, &pattern, &record, MOST);
    let language = told.language();
    let found = find(language);
    let decide = told.brings() && find(Language { classes: None, ..language }) != found;
    let mut kinds = told.kinds(&[&pattern, &record]);
    kinds.extend(kind);
    kinds.extend(decide.then_some(Kind::ClassesDecide));
    Made { told, pattern, record, found, kinds }
}

/// A pattern and a record over a table.
pub type Pair = (Vec<u8>, Vec<u8>);

pub type MakePair = fn(&mut Rng, &[u8], &dyn Library) -> Pair;

/// A pair that is made so, as the language asks for it, now and then with a stray run name; and the
/// kind that this gives it.
pub fn mended(
    rng: &mut Rng,
    told: &Told,
    library: &dyn Library,
    pair: MakePair,
) -> (Pair, Option<Kind>) {
    let (mut pattern, record) = pair(rng, told.table(), library);
    if rng.chance(3) {
        pattern = with_another_run(rng, pattern);
    }
    told.mended_pair(rng, library, (pattern, record))
}

/// A pattern with a run name in place of a name, which may be a stray one.
pub fn with_another_run(rng: &mut Rng, mut pattern: Vec<u8>) -> Vec<u8> {
    let is_name = |at: &usize| (FIRST_NAME..FIRST_RUN).contains(&pattern[*at]);
    let names: Vec<usize> = (0..pattern.len()).filter(is_name).collect();
    if !names.is_empty() {
        pattern[rng.pick(&names)] = FIRST_RUN;
    }
    pattern
}

/// A pattern and a record, any.
pub fn pair(rng: &mut Rng, table: &[u8], library: &dyn Library) -> Pair {
    if rng.chance(4) {
        return long_search(rng, table, library);
    }
    let mut maker = Maker::new(rng, table);
    let record = maker.record();
    (maker.pattern(&record), record)
}

/// A pattern and a record, mostly such that there is an answer with run names.
fn pair_with_runs(rng: &mut Rng, table: &[u8], library: &dyn Library) -> Pair {
    if rng.chance(20) {
        return pair(rng, table, library);
    }
    let (searched, most) = (rng.chance(60), rng.pick(&[6, 12, 80]));
    let mut maker = Maker::new(rng, table);
    let pair = || match searched {
        true => (maker.search(), maker.row(most)),
        false => {
            let record = maker.record();
            (maker.pattern(&record), record)
        }
    };
    tried(pair, |(pattern, record)| {
        Search { library, language: Language::simple(table), pattern, record }.has_run_lengths()
    })
}

/// A pattern and a record whose count is over 1,000, where some tries find one.
fn long_search(rng: &mut Rng, table: &[u8], library: &dyn Library) -> Pair {
    let mut maker = Maker::new(rng, table);
    let pair = || (maker.search(), maker.row(80));
    tried(pair, |(pattern, record)| {
        library.find(Language::simple(table), pattern, record, MOST).0.count > 1_000
    })
}

/// The first of some tries that is as wanted, or else any.
fn tried(mut pair: impl FnMut() -> Pair, wanted: impl Fn(&Pair) -> bool) -> Pair {
    let found = (0..16).map(|_| pair()).find(wanted);
    found.unwrap_or_else(pair)
}

fn rules_case(rng: &mut Rng, table: Vec<u8>, library: &dyn Library) -> Case {
    let made = made(rng, table, library, [Call::Rules, Call::RulesIn], pair);
    let (number, kinds) = allowance(rng, made.found.0);
    let Made { told, pattern, record, .. } = made;
    let mut rules = rules(rng, told.table(), &record);
    rules = told.mended_entries(rng, library, rules);
    if rng.chance(95) {
        rules.insert(rng.below(rules.len() + 1), pattern);
    }
    let last = told.perhaps_last(rng, &mut rules);
    let sheet = perhaps_damaged(rng, sheet_of(told.edition, &rules));
    let mut kinds = [made.kinds, kinds].concat();
    kinds.extend(last);
    let case = told.case(rng, vec![sheet, record], kinds);
    Case { number, room: room(rng), ..case }
}

fn check_rules_case(rng: &mut Rng, table: Vec<u8>, library: &dyn Library) -> Case {
    let told = Told::new(rng, table, [Call::CheckRules, Call::CheckRulesIn], true);
    let record = Maker::new(rng, told.table()).record();
    let rules = rules(rng, told.table(), &record);
    checked(rng, told, library, rules)
}

fn check_states_case(rng: &mut Rng, table: Vec<u8>, library: &dyn Library) -> Case {
    let told = Told::new(rng, table, [Call::CheckStates, Call::CheckStatesIn], true);
    let records = records(rng, told.table());
    checked(rng, told, library, records)
}

/// The check of a sheet of these entries.
fn checked(rng: &mut Rng, told: Told, library: &dyn Library, entries: Vec<Vec<u8>>) -> Case {
    let (entries, kinds) = in_a_sheet(rng, &told, library, entries);
    let sheet = perhaps_damaged(rng, sheet_of(told.edition, &entries));
    told.case(rng, vec![sheet], kinds)
}

/// Entries as a sheet of a language has them, and their kinds.
fn in_a_sheet(
    rng: &mut Rng,
    told: &Told,
    library: &dyn Library,
    entries: Vec<Vec<u8>>,
) -> (Vec<Vec<u8>>, Vec<Kind>) {
    let entries = told.mended_entries(rng, library, entries);
    let mut entries: Vec<_> =
        entries.into_iter().map(|entry| told.classes.exchanged(rng, entry)).collect();
    let last = told.perhaps_last(rng, &mut entries);
    let mut kinds = told.kinds(&entries.iter().map(Vec::as_slice).collect::<Vec<_>>());
    kinds.extend(last);
    (entries, kinds)
}

fn write_case(rng: &mut Rng, table: Vec<u8>, library: &dyn Library) -> Case {
    let told = Told::new(rng, table, [Call::Write, Call::WriteIn], false);
    let records = records(rng, told.table());
    let (records, kinds) = in_a_sheet(rng, &told, library, records);
    let mut lengths: Vec<u16> = records.iter().map(|record| record.len() as u16).collect();
    let mut records = records.concat();
    match rng.below(400) {
        0 => (records, lengths) = (vec![0; 65_537], vec![1; 65_537]),
        1..=20 if !lengths.is_empty() => {
            let at = rng.below(lengths.len());
            lengths[at] = lengths[at].wrapping_add(rng.pick(&[1, u16::MAX, 256]));
        }
        21..=24 => lengths.extend([32_768, 32_768]),
        25..=32 => lengths.push(0),
        33..=40 => records.push(0),
        _ => {}
    }
    let size = 2 + 4 * lengths.len() + records.len();
    let room = match rng.below(10) {
        0 => size.saturating_sub(rng.between(1, 3)),
        1 => rng.below(size),
        2..=5 => size,
        _ => size + rng.below(40),
    };
    Case { lengths, room, ..told.case(rng, vec![records], kinds) }
}

fn entry_case(rng: &mut Rng, table: Vec<u8>, _: &dyn Library) -> Case {
    let entries = records(rng, &table);
    let number = match rng.below(10) {
        0 => entries.len(),
        1 => rng.pick(&[u32::MAX as usize, 65_535, 65_536, 1 << 24]),
        _ => rng.below(entries.len().max(1)),
    };
    let edition = rng.pick(&[Edition::ONE, Edition::TWO]);
    let sheet = perhaps_damaged(rng, sheet_of(edition, &entries));
    Case { number: number as u32, ..Case::new(Call::Entry, vec![sheet]) }
}

/// A case that writes, with a room around what is written: that, one byte less or more, none, or
/// plenty.
pub fn with_room(rng: &mut Rng, case: Case, library: &dyn Library) -> Case {
    let mut case = Case { room: STORED_LIMIT, ..case };
    let length = case.length(library);
    let (room, kind) = match rng.below(8) {
        0 => (length.saturating_sub(1), Some(Kind::OneByteShort)),
        1 => (0, None),
        2 => (length + 1, None),
        3 => (STORED_LIMIT, None),
        _ => (length, Some(Kind::JustEnough)),
    };
    case.kinds.extend(kind);
    Case { room, ..case }
}

/// Patterns of a rule sheet, most of them for a record.
fn rules(rng: &mut Rng, table: &[u8], record: &[u8]) -> Vec<Vec<u8>> {
    let number = match rng.below(40) {
        0 => 64,
        1..=2 => rng.between(65, 70),
        _ => rng.below(5),
    };
    let mut maker = Maker::new(rng, table);
    let mut rules: Vec<_> = (0..number.min(3)).map(|_| maker.pattern(record)).collect();
    rules.resize_with(number, || maker.term(3));
    rules
}

/// Records of a sheet, now and then as many as it holds.
fn records(rng: &mut Rng, table: &[u8]) -> Vec<Vec<u8>> {
    let mut maker = Maker::new(rng, table);
    match maker.rng.below(100) {
        0..=3 => {
            // Seven records of 4,096 bytes and one that fills the sheet or goes one over it.
            let last = SHEET_LIMIT - (2 + 4 * 8 + 7 * 4_096) + maker.rng.below(2);
            let mut records = vec![maker.full(4_096); 7];
            records.push(maker.full(last));
            records
        }
        4..=6 => (0..maker.rng.between(100, 300)).map(|_| maker.term(12)).collect(),
        _ => {
            let number = maker.rng.below(5);
            let mut records: Vec<_> = (0..number).map(|_| maker.term(20)).collect();
            records.extend((maker.rng.chance(60)).then(|| maker.record()));
            records
        }
    }
}

fn perhaps_damaged(rng: &mut Rng, sheet: Vec<u8>) -> Vec<u8> {
    if rng.chance(15) {
        damaged_sheet(rng, sheet)
    } else {
        sheet
    }
}

/// The length of an answer buffer.
pub fn room(rng: &mut Rng) -> usize {
    match rng.below(40) {
        0 => rng.below(ANSWER),
        1 => ANSWER - 1,
        2..=25 => ANSWER,
        _ => ANSWER + rng.below(40),
    }
}

/// A count that is found out before a case is made.
pub const MOST: u32 = 20_000;

/// An allowance at, around or far from the count of an outcome that had [`MOST`].
pub fn allowance(rng: &mut Rng, outcome: Outcome) -> (u32, Vec<Kind>) {
    let (count, known) = (outcome.count as u32, outcome.word() != Some(Word::Spent));
    match rng.below(20) {
        0 => (0, vec![]),
        1..=2 => (rng.below(count as usize + 1) as u32, vec![]),
        _ if !known => (rng.pick(&[100, 2_000, MOST]), vec![]),
        3..=5 => (count.saturating_sub(1), vec![Kind::OneBelow]),
        6..=11 => (count, vec![Kind::AtTheCount]),
        12..=14 => (count + 1, vec![]),
        15..=16 => (rng.pick(&[u32::MAX, u32::MAX - 1, 1 << 31, 1 << 16]), vec![Kind::FarAbove]),
        _ => (100_000, vec![Kind::FarAbove]),
    }
}
