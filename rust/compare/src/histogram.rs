//! How often each call gave each word.

use crate::case::{Call, Case, Kind, Shown, CALLS};
use interface::{Opening, Outcome, Word, COMPLEMENT};
use std::fmt;

/// Cases by word and call, and by kind and call.
pub struct Histogram {
    cases: u64,
    words: [[u64; CALLS.len()]; Word::ALL.len()],
    kinds: [[u64; CALLS.len()]; KINDS.len()],
}

/// The kinds in their order, the words with which they count, and the calls that must have them.
const KINDS: [(&str, &[Word], &[Call]); 118] = [
    ("record over 1,000 bytes, not spent", &ENDED, &LONG_RECORDS),
    ("pattern over 100 bytes, not spent", &ENDED, &PATTERNS),
    ("count over 1,000, not spent", &ENDED, &SEARCHES),
    ("over 32 complements in a row, not spent", &ENDED, &WITH_A_PATTERN),
    ("a run of another number of bytes than of terms", &[Word::Bound], &WITH_AN_ANSWER),
    ("allowance one below the count", &SEARCHED, &COUNTED),
    ("allowance at the count", &SEARCHED, &COUNTED),
    ("allowance far above the count", &SEARCHED, &COUNTED),
    ("each symbol its own class", &ACCEPTED, &SEARCHED_IN),
    ("symbols that share a class", &ACCEPTED, &SEARCHED_IN),
    ("another answer than without classes", &ACCEPTED, &SEARCHED_IN),
    ("a name's parts the same up to class, of unlike bytes", &ACCEPTED, &WITH_CLASSES),
    ("a run name's parts the same up to class, of unlike bytes", &ACCEPTED, &WITH_CLASSES),
    ("a name's parts with unlike numbers of children of one class", &ACCEPTED, &WITH_CLASSES),
    ("a run name's parts with unlike numbers of children of one class", &ACCEPTED, &WITH_CLASSES),
    ("class list that is empty", &[Word::Class], &SEARCHED_IN),
    ("class list one short", &[Word::Class], &SEARCHED_IN),
    ("class list one long", &[Word::Class], &SEARCHED_IN),
    ("class above its own index", &[Word::Class], &SEARCHED_IN),
    ("class that is not its own", &[Word::Class], &SEARCHED_IN),
    ("class with unlike table bytes", &[Word::Class], &SEARCHED_IN),
    ("after the only answer, which has no run names, not spent", &ENDED, &NEXTS),
    ("after the first answer by its run lengths, not spent", &ENDED, &NEXTS),
    ("after a later answer by its run lengths, not spent", &ENDED, &NEXTS),
    ("one given length less", &[Word::Unknown], &NEXTS),
    ("one given length more", &[Word::Unknown], &NEXTS),
    ("another given length", &[Word::Unknown], &NEXTS),
    (
        "row of no lengths that cannot hold, allowance under the count after it",
        &SPENT,
        &WITH_AN_ALLOWANCE,
    ),
    (
        "row of no lengths that cannot hold, allowance at the count after it",
        &SPENT,
        &WITH_AN_ALLOWANCE,
    ),
    (
        "row of no lengths that cannot hold, allowance over the count after it",
        &ACCEPTED,
        &WITH_AN_ALLOWANCE,
    ),
    (
        "row of one length that cannot hold, allowance under the count after it",
        &SPENT,
        &WITH_AN_ALLOWANCE,
    ),
    (
        "row of one length that cannot hold, allowance at the count after it",
        &SPENT,
        &WITH_AN_ALLOWANCE,
    ),
    (
        "row of one length that cannot hold, allowance over the count after it",
        &ACCEPTED,
        &WITH_AN_ALLOWANCE,
    ),
    (
        "row of 2 to 70 lengths that cannot hold, allowance under the count after it",
        &SPENT,
        &WITH_AN_ALLOWANCE,
    ),
    (
        "row of 2 to 70 lengths that cannot hold, allowance at the count after it",
        &SPENT,
        &WITH_AN_ALLOWANCE,
    ),
    (
        "row of 2 to 70 lengths that cannot hold, allowance over the count after it",
        &ACCEPTED,
        &WITH_AN_ALLOWANCE,
    ),
    ("lengths before a symbol that cannot hold", &ACCEPTED, &WITH_AN_ALLOWANCE),
    ("lengths before an assigned name that cannot hold", &ACCEPTED, &WITH_AN_ALLOWANCE),
    ("lengths before an assigned run name that cannot hold", &ACCEPTED, &WITH_AN_ALLOWANCE),
    ("lengths of a last run name that cannot hold", &ACCEPTED, &MATCHES),
    ("a list of 20 elements or more, plain", &ENDED, &PLAINS),
    ("an empty run, plain", &[Word::Bound], &PLAINS),
    ("plain, where the full search is not spent", &ENDED, &PLAINS),
    ("a name or run name twice, or two run names in a list", &[Word::NotPlain], &PLAINS),
    ("a complement, for the plain tier", &[Word::NotPlain], &PLAINS),
    ("edition 2", &ACCEPTED, &READERS),
    ("edition 2, a list in a list of its class mended", &ACCEPTED, &MENDED),
    ("edition 2, a list in a list of another class", &ACCEPTED, &MENDED),
    ("edition 2, a list below a complement in a list of its class", &ACCEPTED, &BELOW),
    ("edition 2, a list in a list of its class by unlike symbols", &[Word::Unspliced], &BY_CLASS),
    ("edition 2, unspliced, and its number of children missing", &[Word::Unspliced], &READERS),
    ("edition 2, unspliced at nesting 33", &[Word::Deep], &READERS),
    ("another edition than 1 and 2", &[Word::Directory], &TOLD),
    ("spliced by class, of unlike symbols", &[Word::Bound], &SPLICES_IN),
    ("an inner list without elements, spliced", &[Word::Bound], &SPLICES),
    ("255 elements when spliced", &[Word::Bound], &SPLICED_RECORDS),
    ("256 elements when spliced", &[Word::Long], &SPLICED_RECORDS),
    ("an output of just the length", &[Word::Bound], &OUTPUTS),
    ("an output of one byte less", &[Word::Full], &OUTPUTS),
    ("a template of the rule's own names", &[Word::Bound], &REPLACES),
    ("the rule as its own template", &[Word::Bound], &REPLACES),
    ("a template's name that does not stand in the rule", &[Word::Loose], &REPLACES),
    ("a template's name that stands within a complement only", &[Word::Loose], &REPLACES),
    ("a complement in a template", &[Word::Loose], &REPLACES),
    ("a result of 255 elements", &[Word::Bound], &REPLACES),
    ("a result of 256 elements", &[Word::Outgrown], &REPLACES),
    ("a result of 4,096 bytes", &[Word::Bound], &REPLACES),
    ("a result of 4,097 bytes", &[Word::Outgrown], &REPLACES),
    ("a result of nesting 32", &[Word::Bound], &REPLACES),
    ("a result of nesting 33", &[Word::Outgrown], &REPLACES),
    ("a result of 255 or 256 elements by splicing", &REPLACED, &REPLACES_IN),
    ("an example of 1 byte", &[Word::Bound], &EXAMPLES),
    ("an example of 2 bytes", &[Word::Bound], &EXAMPLES),
    ("an example of 3 bytes", &[Word::Bound], &EXAMPLES),
    ("an example of 4 bytes", &[Word::Bound], &EXAMPLES),
    ("an example of 5 bytes", &[Word::Bound], &EXAMPLES),
    ("an example of 6 bytes", &[Word::Bound], &EXAMPLES),
    ("an example of just the size", &[Word::Bound], &EXAMPLES),
    ("an example with a symbol that the pattern has not", &[Word::Bound], &EXAMPLES),
    ("an example with two that it has not, of as many children", &[Word::Bound], &EXAMPLES),
    ("a shorter candidate spent before the example", &[Word::Spent], &EXAMPLES),
    ("a candidate spent, another than that", &[Word::Spent], &EXAMPLES),
    ("a size of 7", &[Word::Long], &EXAMPLES),
    ("a game in edition 2", &ACCEPTED, &PLAYS),
    ("a game of another outcome than without classes", &ACCEPTED, &PLAYS_IN),
    ("a game of no turn", &ENDED, &PLAYS),
    ("a game of 6 turns", &ENDED, &PLAYS),
    ("a game of over 6 turns", &[Word::Turns], &PLAYS),
    ("a game for which no move is needed", &[Word::Bound], &PLAYS),
    ("a game forced by the loader's first rule", &[Word::Bound], &PLAYS),
    ("a game forced by a later rule", &[Word::Bound], &PLAYS),
    ("a game in which the loader passes first", &[Word::Bound], &PLAYS),
    ("a game without moves", &ACCEPTED, &PLAYS),
    ("a game with an outgrown result", &ENDED, &PLAYS),
    ("a goal made of a state after a move of the loader", &[Word::Bound], &PLAYS),
    ("a goal made of a state after a move of the sender", &[Word::Bound], &PLAYS),
    ("a game with the allowance at the deciding count", &ENDED, &PLAYS),
    ("a game with the allowance one below it", &SPENT, &PLAYS),
    ("unlike numbers of rules and templates", &[Word::Directory], &PLAYS),
    ("sheets of unlike editions in a game", &[Word::Directory], &PLAYS),
    ("a template of a game that is loose", &[Word::Loose], &PLAYS),
    ("a fault in the loader's rules", &AT_FAULT, &PLAYS),
    ("a fault in the loader's templates", &AT_FAULT, &PLAYS),
    ("a fault in the sender's rules", &AT_FAULT, &PLAYS),
    ("a fault in the sender's templates", &AT_FAULT, &PLAYS),
    ("a fault in the goal", &AT_FAULT, &PLAYS),
    ("a fault in the start", &AT_FAULT, &PLAYS),
    ("a list of calls on a station", &[Word::Bound], &CHANGES),
    ("names and lengths not in use that are none", &[Word::Bound], &CHANGES),
    ("over eight kept", &[Word::Directory], &CHANGES),
    ("a length of 0 in a station", &[Word::Directory], &CHANGES),
    ("a length over 4,096 in a station", &[Word::Directory], &CHANGES),
    ("a name twice in a station", &[Word::Directory], &CHANGES),
    ("36,863 bytes for a station", &[Word::Full], &STATIONS),
    ("too few bytes for a station, which is damaged", &[Word::Full], &CHANGES),
    ("eight kept", &CHANGED, &CHANGES),
    ("a name that is kept", &[Word::Bound], &BY_NAME),
    ("a station's record of 4,096 bytes", &[Word::Bound], &COPIES),
];
const PLAYS: [Call; 2] = [Call::Play, Call::PlayIn];
const PLAYS_IN: [Call; 1] = [Call::PlayIn];
/// What an input of a game is refused with.
const AT_FAULT: [Word; 9] = [
    Word::Short,
    Word::Spare,
    Word::Code,
    Word::Deep,
    Word::Long,
    Word::Stray,
    Word::Directory,
    Word::Unspliced,
    Word::Loose,
];
const SPENT: [Word; 1] = [Word::Spent];
const ENDED: [Word; 2] = [Word::Bound, Word::None];
const ACCEPTED: [Word; 3] = [Word::Bound, Word::None, Word::Spent];
const REPLACED: [Word; 2] = [Word::Bound, Word::Outgrown];
const SEARCHED: [Word; 5] = [Word::Bound, Word::None, Word::Spent, Word::Unknown, Word::NoExample];
const PATTERNS: [Call; 6] =
    [Call::Match, Call::MatchIn, Call::Plain, Call::PlainIn, Call::Cost, Call::CostIn];
const WITH_A_PATTERN: [Call; 6] =
    [Call::Match, Call::MatchIn, Call::Next, Call::NextIn, Call::Cost, Call::CostIn];
const LONG_RECORDS: [Call; 10] = [
    Call::Match,
    Call::MatchIn,
    Call::Next,
    Call::NextIn,
    Call::Plain,
    Call::PlainIn,
    Call::Apply,
    Call::ApplyIn,
    Call::Look,
    Call::LookIn,
];
const REPLACES: [Call; 4] = [Call::Apply, Call::ApplyIn, Call::Look, Call::LookIn];
const REPLACES_IN: [Call; 2] = [Call::ApplyIn, Call::LookIn];
const CHANGED: [Word; 3] = [Word::Bound, Word::Shelf, Word::NoName];
const BY_NAME: [Call; 2] = [Call::StationKeep, Call::StationReturn];
const STATION_APPLIES: [Call; 2] = [Call::StationApply, Call::StationApplyIn];
const CHANGES: [Call; 4] =
    [Call::StationKeep, Call::StationReturn, Call::StationApply, Call::StationApplyIn];
const COPIES: [Call; 4] =
    [Call::StationNew, Call::StationNewIn, Call::StationKeep, Call::StationReturn];
const STATIONS: [Call; 6] = [
    Call::StationNew,
    Call::StationNewIn,
    Call::StationKeep,
    Call::StationReturn,
    Call::StationApply,
    Call::StationApplyIn,
];
const EXAMPLES: [Call; 2] = [Call::Example, Call::ExampleIn];
const PLAINS: [Call; 2] = [Call::Plain, Call::PlainIn];
const NEXTS: [Call; 2] = [Call::Next, Call::NextIn];
const SEARCHES: [Call; 4] = [Call::Match, Call::MatchIn, Call::Next, Call::NextIn];
const COUNTED: [Call; 10] = [
    Call::Match,
    Call::MatchIn,
    Call::Next,
    Call::NextIn,
    Call::Apply,
    Call::ApplyIn,
    Call::Look,
    Call::LookIn,
    Call::Example,
    Call::ExampleIn,
];
const WITH_AN_ALLOWANCE: [Call; 6] =
    [Call::Match, Call::MatchIn, Call::Next, Call::NextIn, Call::Rules, Call::RulesIn];
const WITH_AN_ANSWER: [Call; 8] = [
    Call::Match,
    Call::MatchIn,
    Call::Next,
    Call::NextIn,
    Call::Plain,
    Call::PlainIn,
    Call::Rules,
    Call::RulesIn,
];
const MATCHES: [Call; 4] = [Call::Match, Call::MatchIn, Call::Rules, Call::RulesIn];
const WITH_CLASSES: [Call; 5] =
    [Call::MatchIn, Call::NextIn, Call::RulesIn, Call::ApplyIn, Call::LookIn];
const SEARCHED_IN: [Call; 6] =
    [Call::MatchIn, Call::NextIn, Call::PlainIn, Call::RulesIn, Call::ApplyIn, Call::LookIn];
const WRITERS: [Call; 2] = [Call::Write, Call::WriteIn];
const RULES: [Call; 2] = [Call::CheckRules, Call::CheckRulesIn];
const SPLICES: [Call; 4] =
    [Call::SpliceRecord, Call::SpliceRecordIn, Call::SplicePattern, Call::SplicePatternIn];
const SPLICES_IN: [Call; 2] = [Call::SpliceRecordIn, Call::SplicePatternIn];
const SPLICED_RECORDS: [Call; 2] = [Call::SpliceRecord, Call::SpliceRecordIn];
const RESTORES: [Call; 2] = [Call::Restore, Call::RestoreIn];
const OUTPUTS: [Call; 12] = [
    Call::Store,
    Call::StoreIn,
    Call::Restore,
    Call::RestoreIn,
    Call::SpliceRecord,
    Call::SpliceRecordIn,
    Call::SplicePattern,
    Call::SplicePatternIn,
    Call::Apply,
    Call::ApplyIn,
    Call::Example,
    Call::ExampleIn,
];
const TOLD: [Call; 12] = [
    Call::MatchIn,
    Call::NextIn,
    Call::PlainIn,
    Call::WriteIn,
    Call::CostIn,
    Call::StoreIn,
    Call::RestoreIn,
    Call::ApplyIn,
    Call::LookIn,
    Call::ExampleIn,
    Call::StationNewIn,
    Call::StationApplyIn,
];
/// The calls whose sheet tells the edition.
const WITH_A_SHEET: [Call; 6] = [
    Call::Rules,
    Call::RulesIn,
    Call::CheckRules,
    Call::CheckRulesIn,
    Call::CheckStates,
    Call::CheckStatesIn,
];
/// The calls that read records or patterns in edition 2.
const READERS: [Call; 15] = [
    Call::MatchIn,
    Call::NextIn,
    Call::PlainIn,
    Call::Rules,
    Call::RulesIn,
    Call::WriteIn,
    Call::CheckRules,
    Call::CheckRulesIn,
    Call::CheckStates,
    Call::CheckStatesIn,
    Call::CostIn,
    Call::StoreIn,
    Call::RestoreIn,
    Call::ApplyIn,
    Call::LookIn,
];
const MENDED: [Call; 9] = [
    Call::MatchIn,
    Call::NextIn,
    Call::PlainIn,
    Call::Rules,
    Call::RulesIn,
    Call::StoreIn,
    Call::RestoreIn,
    Call::ApplyIn,
    Call::LookIn,
];
const BELOW: [Call; 5] = [Call::MatchIn, Call::NextIn, Call::Rules, Call::RulesIn, Call::CostIn];
const BY_CLASS: [Call; 12] = [
    Call::MatchIn,
    Call::NextIn,
    Call::PlainIn,
    Call::RulesIn,
    Call::WriteIn,
    Call::CheckRulesIn,
    Call::CheckStatesIn,
    Call::CostIn,
    Call::StoreIn,
    Call::RestoreIn,
    Call::ApplyIn,
    Call::LookIn,
];

impl Histogram {
    pub(crate) fn new() -> Self {
        Histogram {
            cases: 0,
            words: [[0; CALLS.len()]; Word::ALL.len()],
            kinds: [[0; CALLS.len()]; KINDS.len()],
        }
    }

    pub(crate) fn add(&mut self, case: &Case, shown: &Shown) {
        let [number, _, count] = shown.result;
        let place = Word::ALL.iter().position(|word| u64::from(word.number()) == number);
        let place = place.expect("a number that has a word");
        let (word, call) = (Word::ALL[place], case.call as usize);
        self.cases += 1;
        self.words[place][call] += 1;
        let terms = shown.has_other_bytes_than_terms().then_some(Kind::OtherBytesThanTerms);
        let games = opening(case, shown);
        for kind in sizes(case, count).chain(terms).chain(games).chain(case.kinds.iter().copied()) {
            let counts = KINDS[kind as usize].1.contains(&word);
            self.kinds[kind as usize][call] += u64::from(counts);
        }
    }

    /// The words and kinds of a call that fewer than one in 10,000 cases had.
    pub fn rare(&self) -> Vec<String> {
        let least = (self.cases / 10_000).max(1);
        let words = Word::ALL.iter().zip(&self.words).flat_map(|(&word, row)| {
            let calls = CALLS.iter().map(|&(call, _)| call);
            calls
                .filter(move |&call| can_give(call, word))
                .map(move |call| (word.text(), row, call))
        });
        let kinds = KINDS
            .iter()
            .zip(&self.kinds)
            .flat_map(|((kind, _, calls), row)| calls.iter().map(move |&call| (*kind, row, call)));
        let rare = words.chain(kinds).filter(|&(_, row, call)| row[call as usize] < least);
        rare.map(|(name, _, call)| format!("{name} of {}", call.name())).collect()
    }
}

/// The kinds that a case of a search or of a cost has by its sizes and its count.
fn sizes(case: &Case, count: u64) -> impl Iterator<Item = Kind> {
    let (pattern, record): (&[u8], &[u8]) = match (case.call, &case.inputs[..]) {
        (Call::Cost | Call::CostIn, [.., pattern]) => (pattern, &[]),
        (call, [.., pattern, _, record]) if REPLACES.contains(&call) => (pattern, record),
        (call, [.., pattern, record]) if LONG_RECORDS.contains(&call) => (pattern, record),
        _ => (&[], &[]),
    };
    let complements = pattern.split(|&code| code != COMPLEMENT).any(|row| row.len() > 32);
    let long_search = !record.is_empty() && count > 1_000;
    let sizes = [record.len() > 1_000, pattern.len() > 100, long_search, complements];
    let kinds = [Kind::LongRecord, Kind::LongPattern, Kind::LongSearch, Kind::ManyComplements];
    kinds.into_iter().zip(sizes).filter_map(|(kind, has)| has.then_some(kind))
}

/// What the loader begins a game with that is forced.
fn opening(case: &Case, shown: &Shown) -> Option<Kind> {
    let [number, index, count] = shown.result;
    let outcome = Outcome { number: number as u32, index: index as u32, count };
    let opening = PLAYS.contains(&case.call).then(|| outcome.opening()).flatten();
    opening.map(|opening| match opening {
        Opening::NoMove => Kind::NoMoveNeeded,
        Opening::Rule(0) => Kind::FirstRule,
        Opening::Rule(_) => Kind::LaterRule,
        Opening::Pass => Kind::PassFirst,
    })
}

/// Whether a call can give a word.
fn can_give(call: Call, word: Word) -> bool {
    let replaces = [&REPLACES[..], &STATION_APPLIES].concat().contains(&call);
    let (examples, stations) = (EXAMPLES.contains(&call), STATIONS.contains(&call));
    if PLAYS.contains(&call) {
        return !NO_GAMES.contains(&word) && (word != Word::Class || call.brings());
    }
    let reads_patterns = [&WITH_AN_ANSWER[..], &WITH_A_PATTERN, &RULES].concat().contains(&call)
        || replaces
        || examples
        || [Call::SplicePattern, Call::SplicePatternIn].contains(&call);
    let (is_told, reads) = (call.is_told(), call != Call::Entry && !BY_NAME.contains(&call));
    match word {
        Word::Bound => true,
        Word::Long => !BY_NAME.contains(&call),
        Word::Table | Word::Short | Word::Spare | Word::Code | Word::Deep => reads,
        Word::Stray => reads_patterns,
        Word::None => replaces || [&WITH_AN_ANSWER[..], &WITH_A_PATTERN].concat().contains(&call),
        Word::Narrow => WITH_AN_ANSWER.contains(&call),
        Word::Spent => replaces || examples || WITH_AN_ALLOWANCE.contains(&call),
        Word::Directory => {
            is_told
                || [&WITH_A_SHEET[..], &WRITERS, &CHANGES, &[Call::Entry]].concat().contains(&call)
        }
        Word::Full => stations || [&OUTPUTS[..], &WRITERS].concat().contains(&call),
        Word::Class => call.brings(),
        Word::Unknown => NEXTS.contains(&call),
        Word::Unspliced => is_told || READERS.contains(&call),
        Word::Length => RESTORES.contains(&call),
        Word::NotPlain => PLAINS.contains(&call),
        Word::Loose | Word::Outgrown => replaces,
        Word::NoName => call == Call::StationReturn,
        Word::Shelf => call == Call::StationKeep,
        Word::NoExample => examples,
        Word::Unread | Word::Turns => false,
    }
}

/// The words that no game gives.
const NO_GAMES: [Word; 10] = [
    Word::Narrow,
    Word::Full,
    Word::Unread,
    Word::Unknown,
    Word::Length,
    Word::Outgrown,
    Word::NoName,
    Word::Shelf,
    Word::NoExample,
    Word::NotPlain,
];

impl fmt::Display for Histogram {
    fn fmt(&self, f: &mut fmt::Formatter) -> fmt::Result {
        write!(f, "{:9}", "word")?;
        CALLS.iter().try_for_each(|(_, call)| write!(f, " {call:>12}"))?;
        for (word, row) in Word::ALL.iter().zip(&self.words) {
            write!(f, "\n{:9}", word.text())?;
            CALLS.iter().zip(row).try_for_each(|((_, call), cases)| {
                write!(f, " {cases:>width$}", width = call.len().max(12))
            })?;
        }
        for ((kind, _, calls), row) in KINDS.iter().zip(&self.kinds) {
            let cases =
                calls.iter().map(|&call| format!("{} of {}", row[call as usize], call.name()));
            write!(f, "\n{kind}: {}", cases.collect::<Vec<_>>().join(", "))?;
        }
        Ok(())
    }
}
