//! An independent implementation of the calls, written from documents 01 and 02 alone.
//!
//! A pattern is compiled to a short list of steps ([`pattern`]), a record is read once into a
//! table of where each term ends ([`record`]), and the search ([`search`]) goes back by a stack
//! of run names. A record's bytes determine its term, so equal terms are equal bytes. Up to class
//! the same search runs on a pattern and a record whose symbols are replaced by their classes
//! ([`classes`]); where parts lie is not changed by that. In edition 2 the readers ask for spliced
//! lists, and the search is the same. A replacement puts the record's own bytes into the template
//! ([`replace`]), and a game goes through the states that replacements lead to ([`game`]). An example
//! is the first of the records, made in order, that decides ([`example`]). The search has two
//! variants, with the same counts: one tries every length of a run name, one counts those that
//! cannot hold without trying them.

pub mod classes;
pub mod example;
pub mod fault;
pub mod game;
pub mod grammar;
pub mod pattern;
pub mod plain;
pub mod record;
pub mod replace;
pub mod search;
pub mod sheet;
pub mod splice;
pub mod station;
pub mod stored;
pub mod table;

use fault::Fault;
use grammar::Grammar;
use interface::{
    edition_of, Answer, Labels, Language, Library, Outcome, Part, Side, Word, Written, ABSENT,
    ANSWER, EXAMPLE_LIMIT, SHEET_LIMIT,
};
use pattern::Steps;
use record::Record;
use search::{Found, Search};
use sheet::Sheet;

pub use Independent::{Reference, Shortcuts};

/// The independent implementation, by the variants of its search.
#[derive(Clone, Copy, Debug, PartialEq, Eq)]
pub enum Independent {
    /// Tries every length of a run name.
    Reference,
    /// Counts the lengths that cannot hold without trying them.
    Shortcuts,
}

impl Library for Independent {
    fn match_one(
        &self,
        language: Language,
        pattern: &[u8],
        record: &[u8],
        allowance: u32,
        answer: &mut [u16],
    ) -> Outcome {
        shown(match_one(*self, language, pattern, record, allowance, answer))
    }

    fn next(
        &self,
        language: Language,
        pattern: &[u8],
        record: &[u8],
        given: &[u16],
        allowance: u32,
        answer: &mut [u16],
    ) -> Outcome {
        shown(next(*self, language, pattern, record, given, allowance, answer))
    }

    fn match_plain(
        &self,
        language: Language,
        pattern: &[u8],
        record: &[u8],
        answer: &mut [u16],
    ) -> Outcome {
        shown(match_plain(language, pattern, record, answer))
    }

    fn match_rules(
        &self,
        language: Language,
        rules: &[u8],
        record: &[u8],
        allowance: u32,
        answer: &mut [u16],
    ) -> Outcome {
        shown(match_rules(*self, language, rules, record, allowance, answer))
    }

    fn write_sheet(
        &self,
        language: Language,
        records: &[u8],
        lengths: &[u16],
        output: &mut [u8],
    ) -> Outcome {
        shown(write_sheet(language, records, lengths, output))
    }

    fn entry(&self, sheet: &[u8], index: u32) -> Part {
        let found = Sheet::read(sheet)
            .and_then(|sheet| sheet.range(index as usize).ok_or(Fault::new(Word::Directory, 0)));
        match found {
            Ok(range) => Part { number: 0, offset: range.start as u32, length: range.len() as u32 },
            Err(fault) => Part { number: fault.word.number(), offset: 0, length: 0 },
        }
    }

    fn check_rules(&self, language: Language, sheet: &[u8]) -> Outcome {
        shown(check_rules(language, sheet).map(|()| Outcome::ACCEPTED))
    }

    fn check_states(&self, language: Language, sheet: &[u8]) -> Outcome {
        shown(check_states(language, sheet).map(|()| Outcome::ACCEPTED))
    }

    fn cost(&self, language: Language, pattern: &[u8]) -> Outcome {
        shown(cost(language, pattern))
    }

    fn store(&self, language: Language, record: &[u8], output: &mut [u8]) -> Outcome {
        shown(stored::store(language, record, output))
    }

    fn restore(&self, language: Language, stored: &[u8], output: &mut [u8]) -> Outcome {
        shown(stored::restore(language, stored, output))
    }

    fn splice_record(&self, language: Language, record: &[u8], output: &mut [u8]) -> Outcome {
        shown(splice::record(language, record, output))
    }

    fn splice_pattern(&self, language: Language, pattern: &[u8], output: &mut [u8]) -> Outcome {
        shown(splice::pattern(language, pattern, output))
    }

    fn apply(
        &self,
        language: Language,
        pattern: &[u8],
        template: &[u8],
        record: &[u8],
        allowance: u32,
        output: &mut [u8],
    ) -> Written {
        let replaced = replaced(*self, language, pattern, template, record, allowance);
        written(replaced.and_then(|replaced| replaced.write(output)))
    }

    fn look(
        &self,
        language: Language,
        pattern: &[u8],
        template: &[u8],
        record: &[u8],
        allowance: u32,
    ) -> Written {
        let replaced = replaced(*self, language, pattern, template, record, allowance);
        written(replaced.map(|replaced| replaced.look()))
    }

    fn example(
        &self,
        language: Language,
        pattern: &[u8],
        size: u32,
        allowance: u32,
        output: &mut [u8],
    ) -> Written {
        let least = least(*self, language, pattern, size, allowance);
        written(least.and_then(|least| least.write(output)))
    }

    fn station_new(
        &self,
        language: Language,
        record: &[u8],
        station: &mut Labels,
        records: &mut [u8],
    ) -> Outcome {
        shown(station::new(language, record, station, records).map(|()| Outcome::ACCEPTED))
    }

    fn station_keep(&self, name: u16, station: &mut Labels, records: &mut [u8]) -> Outcome {
        shown(station::keep(name, station, records).map(|()| Outcome::ACCEPTED))
    }

    fn station_return(&self, name: u16, station: &mut Labels, records: &mut [u8]) -> Outcome {
        shown(station::return_to(name, station, records).map(|()| Outcome::ACCEPTED))
    }

    fn station_apply(
        &self,
        language: Language,
        pattern: &[u8],
        template: &[u8],
        allowance: u32,
        station: &mut Labels,
        records: &mut [u8],
    ) -> Written {
        let applied = station::apply(language, station, records, |record| {
            replaced(*self, language, pattern, template, record, allowance)
        });
        written(applied)
    }

    fn play(
        &self,
        turns: u32,
        language: Language,
        loader: Side,
        sender: Side,
        goal: &[u8],
        record: &[u8],
        allowance: u32,
    ) -> Outcome {
        let asked = game::Asked { loader, sender, goal, record, turns, allowance };
        shown(game::play(*self, language, asked))
    }
}

/// Why a call refuses: the fault and the index of the entry that it lies in, if any.
#[derive(Clone, Copy, Debug, PartialEq, Eq)]
pub struct Refusal {
    pub fault: Fault,
    pub entry: Option<usize>,
}

impl From<Fault> for Refusal {
    fn from(fault: Fault) -> Self {
        Refusal { fault, entry: None }
    }
}

/// Checks a table, a class list if one is brought, and a sheet of patterns, in the sheet's edition.
pub fn check_rules(language: Language, sheet: &[u8]) -> Result<(), Refusal> {
    let grammar = Grammar::read(in_sheet(language, sheet))?;
    let mut steps = Steps::new();
    for (index, bytes) in Sheet::read(sheet)?.rules()?.entries().enumerate() {
        steps.clear();
        steps.read(grammar, bytes).map_err(|fault| fault.of_entry(index))?;
    }
    Ok(())
}

/// Checks a table, a class list if one is brought, and a sheet of records, in the sheet's edition.
pub fn check_states(language: Language, sheet: &[u8]) -> Result<(), Refusal> {
    let grammar = Grammar::read(in_sheet(language, sheet))?;
    for (index, bytes) in Sheet::read(sheet)?.entries().enumerate() {
        Record::check(grammar, bytes).map_err(|fault| fault.of_entry(index))?;
    }
    Ok(())
}

/// A language in the edition that a sheet tells.
fn in_sheet<'a>(language: Language<'a>, sheet: &[u8]) -> Language<'a> {
    language.in_edition(edition_of(sheet))
}

/// Counts the nodes of a pattern, each of which is set against one record node at most.
fn cost(language: Language, pattern: &[u8]) -> Result<Outcome, Refusal> {
    let mut steps = Steps::new();
    steps.read(Grammar::read(language)?, pattern)?;
    Ok(match steps.nodes() {
        Some(nodes) => Outcome::counted(Word::Bound, 0, nodes as u64),
        None => Outcome::counted(Word::None, 0, 0),
    })
}

/// Writes a sheet of joined records.
fn write_sheet(
    language: Language,
    records: &[u8],
    lengths: &[u16],
    output: &mut [u8],
) -> Result<Outcome, Refusal> {
    let grammar = Grammar::read(language)?;
    let sum: usize = lengths.iter().map(|&length| usize::from(length)).sum();
    if lengths.contains(&0) || sum != records.len() {
        return Err(Fault::new(Word::Directory, 0).into());
    }
    let size = 2 + 4 * lengths.len() + sum;
    if size > SHEET_LIMIT {
        return Err(Fault::new(Word::Long, SHEET_LIMIT).into());
    }
    let mut rest = records;
    for (index, &length) in lengths.iter().enumerate() {
        let (bytes, later) = rest.split_at(length.into());
        Record::check(grammar, bytes).map_err(|fault| fault.of_entry(index))?;
        rest = later;
    }
    let output = output.get_mut(..size).ok_or(Fault::new(Word::Full, 0))?;
    sheet::write(language.edition, records, lengths, output);
    Ok(Outcome::counted(Word::Bound, 0, size as u64))
}

/// Matches one pattern; inlined, as what it calls, so that a call without a class list is as fast
/// as if there were none.
#[inline(always)]
fn match_one(
    variant: Independent,
    language: Language,
    pattern: &[u8],
    record: &[u8],
    allowance: u32,
    answer: &mut [u16],
) -> Result<Outcome, Refusal> {
    let (answer, grammar) = told(language, answer)?;
    let mut steps = Steps::new();
    let start = steps.read(grammar, pattern)?;
    with_search(variant, grammar, steps, record, |search, _| {
        first_of(search, &[start], allowance, answer)
    })
}

/// Shows the answer after the one with the given lengths.
fn next(
    variant: Independent,
    language: Language,
    pattern: &[u8],
    record: &[u8],
    given: &[u16],
    allowance: u32,
    answer: &mut [u16],
) -> Result<Outcome, Refusal> {
    let (answer, grammar) = told(language, answer)?;
    let mut steps = Steps::new();
    let start = steps.read(grammar, pattern)?;
    let runs = steps.free_runs(start);
    let unknown = Fault::new(Word::Unknown, 0);
    with_search(variant, grammar, steps, record, |search, _| {
        if given.len() != runs.len() {
            return Err(unknown.into());
        }
        let given = runs.iter().copied().zip(given.iter().copied());
        let (found, count) = search.run_after(start, given, allowance).ok_or(unknown)?;
        if found == Found::Bound {
            search.answer(answer);
        }
        Ok(Outcome::counted(found.word(), 0, count))
    })
}

/// Matches one plain pattern.
fn match_plain(
    language: Language,
    pattern: &[u8],
    record: &[u8],
    answer: &mut [u16],
) -> Result<Outcome, Refusal> {
    let (answer, grammar) = told(language, answer)?;
    Steps::new().read(grammar, pattern)?;
    let rule = plain::read(grammar.table, pattern).ok_or(Fault::new(Word::NotPlain, 0))?;
    let ends = &mut Vec::new();
    let record = Record::read(grammar, record, ends)?;
    Ok(plain::run(grammar, &rule, record, answer))
}

/// What a match comes to, and the record that it gives, which is empty unless it is bound.
pub(crate) struct Produced {
    found: Found,
    count: u64,
    bytes: Vec<u8>,
}

impl Produced {
    fn look(&self) -> Written {
        match self.found {
            Found::Bound => Written::bound(self.bytes.len(), self.count),
            _ => Written::unbound(self.found.word(), self.count),
        }
    }

    /// Writes the record, if there is one: number 12, or what the look shows.
    fn write(&self, output: &mut [u8]) -> Result<Written, Refusal> {
        let output = output.get_mut(..self.bytes.len()).ok_or(Fault::new(Word::Full, 0))?;
        output.copy_from_slice(&self.bytes);
        Ok(self.look())
    }
}

/// Matches one pattern, and puts the first answer's parts into a template.
fn replaced(
    variant: Independent,
    language: Language,
    pattern: &[u8],
    template: &[u8],
    record: &[u8],
    allowance: u32,
) -> Result<Produced, Refusal> {
    let grammar = Grammar::read(language)?;
    let (mut steps, mut template_steps) = (Steps::new(), Steps::new());
    let start = steps.read(grammar, pattern)?;
    template_steps.read(grammar, template)?;
    replace::check(template_steps.as_slice(), steps.free(start))?;
    with_search(variant, grammar, steps, record, |search, record| {
        let (found, count) = search.run(start, allowance);
        let mut bytes = Vec::new();
        if found == Found::Bound {
            let mut answer = Answer([ABSENT; ANSWER]);
            search.answer(&mut answer.0);
            bytes = replace::filled(grammar, template, record, &answer)
                .map_err(|outgrown| Fault::new(Word::Outgrown, outgrown.at))?;
        }
        Ok(Produced { found, count, bytes })
    })
}

/// Finds the first record of at most so many bytes that a pattern is bound or spent on.
fn least(
    variant: Independent,
    language: Language,
    pattern: &[u8],
    size: u32,
    allowance: u32,
) -> Result<Produced, Refusal> {
    grammar::check_edition(language.edition)?;
    let size = size as usize;
    if size > EXAMPLE_LIMIT {
        return Err(Fault::new(Word::Long, 0).into());
    }
    let grammar = Grammar::read(language)?;
    let mut steps = Steps::new();
    steps.read(grammar, pattern)?;
    if let Some(classes) = grammar.classes {
        steps.merge(classes);
    }
    let first = example::first(variant, grammar, &steps, size, allowance);
    first.ok_or(Fault::new(Word::NoExample, 0).into())
}

/// Tries the patterns of a sheet, in its edition, on a record in the same.
#[inline(always)]
fn match_rules(
    variant: Independent,
    language: Language,
    rules: &[u8],
    record: &[u8],
    allowance: u32,
    answer: &mut [u16],
) -> Result<Outcome, Refusal> {
    let (answer, grammar) = told(in_sheet(language, rules), answer)?;
    let mut steps = Steps::new();
    let starts = read_rules(grammar, rules, &mut steps)?;
    with_search(variant, grammar, steps, record, |search, _| {
        first_of(search, &starts, allowance, answer)
    })
}

/// Tries the patterns that start at these steps, up to the first that is bound or spent.
#[inline(always)]
fn first_of(
    search: &mut Search,
    starts: &[usize],
    allowance: u32,
    answer: &mut [u16; ANSWER],
) -> Result<Outcome, Refusal> {
    let mut sum = 0;
    for (rule, &start) in starts.iter().enumerate() {
        let (found, count) = search.run(start, allowance);
        sum += count;
        if found == Found::Bound {
            search.answer(answer);
        }
        if found != Found::None {
            return Ok(Outcome::counted(found.word(), rule, sum));
        }
    }
    Ok(Outcome::counted(Word::None, 0, sum))
}

/// Reads a record, and does something with it and a search of it by these patterns.
#[inline(always)]
fn with_search<T>(
    variant: Independent,
    grammar: Grammar,
    mut steps: Steps,
    record: &[u8],
    run: impl FnOnce(&mut Search, Record) -> Result<T, Refusal>,
) -> Result<T, Refusal> {
    let ends = &mut Vec::new();
    let record = Record::read(grammar, record, ends)?;
    let mut searched = record;
    let merged;
    if let Some(classes) = grammar.classes {
        steps.merge(classes);
        merged = classes.merged(record.bytes);
        searched.bytes = &merged;
    }
    run(&mut Search::new(variant, &steps, searched), record)
}

/// Reads the patterns of a rule sheet, and gives the step at which each starts.
fn read_rules(grammar: Grammar, sheet: &[u8], steps: &mut Steps) -> Result<Vec<usize>, Refusal> {
    let entries = Sheet::read(sheet)?.rules()?.entries().enumerate();
    entries
        .map(|(index, bytes)| steps.read(grammar, bytes).map_err(|fault| fault.of_entry(index)))
        .collect()
}

/// The numbers of an answer and the language, if there is such an edition, the buffer is wide enough
/// and the language is accepted.
#[inline(always)]
fn told<'a, 'b>(
    language: Language<'a>,
    answer: &'b mut [u16],
) -> Result<(&'b mut [u16; ANSWER], Grammar<'a>), Fault> {
    grammar::check_edition(language.edition)?;
    let answer = answer.first_chunk_mut().ok_or(Fault::new(Word::Narrow, 0))?;
    Ok((answer, Grammar::read(language)?))
}

/// The answer of a replacement that may be refused.
fn written(result: Result<Written, Refusal>) -> Written {
    result.unwrap_or_else(|refusal| Written::refused(refusal.fault.word))
}

/// The outcome of a call that may be refused.
fn shown(result: Result<Outcome, Refusal>) -> Outcome {
    result
        .unwrap_or_else(|refusal| Outcome::refused(refusal.fault.word, refusal.entry.unwrap_or(0)))
}
