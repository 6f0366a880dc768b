//! The calls of `include/qonveshir.h` as a trait, so that the proved library and the
//! independent implementation can stand in each other's place.

mod answers;
mod game;
mod language;
mod station;

pub use answers::Answers;
pub use game::{Opening, Side, NO_MOVE, PASS, TURNS_LIMIT};
pub use language::{edition_of, Edition, Language};
pub use station::{Labels, Station};

use std::ops::Range;

/// The version, which the header and the command line show too.
pub const VERSION: &str = env!("CARGO_PKG_VERSION");

/// Most bytes of a table.
pub const TABLE_LIMIT: usize = 200;
/// Most bytes of a pattern.
pub const PATTERN_LIMIT: usize = 256;
/// Most bytes of a record.
pub const RECORD_LIMIT: usize = 4_096;
/// Most bytes of a stored record.
pub const STORED_LIMIT: usize = 8_192;
/// Most bytes of a sheet.
pub const SHEET_LIMIT: usize = 32_768;
/// Largest size that an example may be asked for, in bytes.
pub const EXAMPLE_LIMIT: usize = 6;
/// Most records that a station keeps.
pub const KEPT_LIMIT: usize = 8;
/// Bytes lent for a station's records: the current one's and the kept ones'.
pub const STATION_ROOM: usize = RECORD_LIMIT * (KEPT_LIMIT + 1);
/// What the count of an edition 2 sheet has added.
pub const EDITION_MARK: u16 = 32_768;
/// Most patterns of a rule sheet.
pub const RULES_LIMIT: usize = 64;
/// Most nodes from the root to a node, both counted.
pub const NESTING_LIMIT: usize = 32;
/// Table byte of a list symbol.
pub const LIST: u8 = 255;
/// Most children of a symbol that is not a list.
pub const CHILDREN_LIMIT: u8 = 8;
/// Code of the name `?0`.
pub const FIRST_NAME: u8 = 200;
/// Code of the run name `@0`.
pub const FIRST_RUN: u8 = 232;
/// Code of the complement.
pub const COMPLEMENT: u8 = 248;
/// Number of names, ?0 to ?31.
pub const NAMES: usize = 32;
/// Number of run names, @0 to @15.
pub const RUNS: usize = 16;
/// An allowance that is never spent on a pattern without run names.
pub const AMPLE: u32 = 256;
/// Numbers of an answer's entry: offset, length and number of terms.
pub const ENTRY: usize = 3;
/// Numbers that an answer holds, an entry for each name and run name.
pub const ANSWER: usize = ENTRY * (NAMES + RUNS);
/// Offset shown for a name or run name that is not free, with length and number of terms 0.
pub const ABSENT: u16 = u16::MAX;

/// The numbers and words of documents 01 and 02; 0 is bound, written, accepted, bounded, changed or
/// forced.
#[derive(Clone, Copy, Debug, PartialEq, Eq, PartialOrd, Ord)]
#[repr(u8)]
pub enum Word {
    Bound = 0,
    Table,
    Short,
    Spare,
    Code,
    Deep,
    Long,
    Stray,
    Narrow,
    Directory,
    None,
    Spent,
    Full,
    Unread,
    Class,
    Unknown,
    Unspliced,
    Length,
    Loose,
    Outgrown,
    NoName,
    Shelf,
    NoExample,
    NotPlain,
    Turns,
}

impl Word {
    /// Every word, in the order of the numbers.
    pub const ALL: [Word; 25] = {
        use Word::*;
        [
            Bound, Table, Short, Spare, Code, Deep, Long, Stray, Narrow, Directory, None, Spent,
            Full, Unread, Class, Unknown, Unspliced, Length, Loose, Outgrown, NoName, Shelf,
            NoExample, NotPlain, Turns,
        ]
    };

    /// The word's number.
    pub fn number(self) -> u32 {
        self as u32
    }

    /// The word of a number.
    pub fn of(number: u32) -> Option<Word> {
        Self::ALL.into_iter().find(|word| word.number() == number)
    }

    /// The word as it is written.
    pub fn text(self) -> &'static str {
        match self {
            Word::Bound => "bound",
            Word::Table => "table",
            Word::Short => "short",
            Word::Spare => "spare",
            Word::Code => "code",
            Word::Deep => "deep",
            Word::Long => "long",
            Word::Stray => "stray",
            Word::Narrow => "narrow",
            Word::Directory => "directory",
            Word::None => "none",
            Word::Spent => "spent",
            Word::Full => "full",
            Word::Unread => "unread",
            Word::Class => "class",
            Word::Unknown => "unknown",
            Word::Unspliced => "unspliced",
            Word::Length => "length",
            Word::Loose => "loose",
            Word::Outgrown => "outgrown",
            Word::NoName => "no name",
            Word::Shelf => "shelf",
            Word::NoExample => "no example",
            Word::NotPlain => "not plain",
            Word::Turns => "turns",
        }
    }

    /// When the word is given.
    pub fn meaning(self) -> &'static str {
        match self {
            Word::Bound => "bound, written, accepted or bounded",
            Word::Table => "over 200 bytes, or a byte neither 0 to 8 nor 255",
            Word::Short => "pattern or record ends before its last node; empty too",
            Word::Spare => "bytes after the last node",
            Word::Code => "a code not allowed there, or a symbol not in the table",
            Word::Deep => "nesting over 32",
            Word::Long => {
                "pattern, record, stored record or sheet over its limit, over 64 rules; an old form \
                 over a record's limit; a spliced list over 255 elements"
            },
            Word::Stray => "run name elsewhere than as a list's child",
            Word::Narrow => "answer buffer under 144 numbers",
            Word::Directory => {
                "a sheet breaks its rules, no such entry, or an edition neither 1 nor 2"
            }
            Word::None => {
                "no assignment satisfies the pattern, or none after the given answer; of a cost, no \
                 bound"
            }
            Word::Spent => "the count is over the allowance",
            Word::Full => "output too short for what is to be written",
            Word::Unread => "the program can't open or read a file",
            Word::Class => {
                "a class list of the wrong length, an entry above its own index or not its own \
                 class, or unlike table bytes within a class"
            }
            Word::Unknown => {
                "the given run lengths are not one for each free run name, or belong to no answer"
            }
            Word::Unspliced => "in edition 2, a list directly inside a list of its class",
            Word::Length => "a stored list tells another length than that of its children",
            Word::Loose => "a template with a complement, or a name or run name not free in the rule",
            Word::Outgrown => {
                "what a template gives is over 4,096 bytes, nesting 32 or 255 elements of a list"
            }
            Word::NoName => "no state is kept under that name",
            Word::Shelf => "eight states are kept, and the name is a ninth",
            Word::NoExample => "no record up to that size satisfies the pattern",
            Word::NotPlain => {
                "a pattern for the plain tier with a complement, a name or run name twice, or two \
                 run names in a list"
            }
            Word::Turns => "more than 6 turns",
        }
    }

    /// When else the word is given: by the calls for an example, of a station and of a game.
    pub fn also(self) -> Option<&'static str> {
        Some(match self {
            Word::Bound => "a station changed, or a game forced",
            Word::Long => "a size of an example over 6",
            Word::Directory => {
                "a station with over eight kept, a length not 1 to 4,096 or a name twice"
            }
            Word::None => "a game in which the goal is not forced",
            Word::Full => "under 36,864 bytes for a station",
            _ => return None,
        })
    }
}

/// `qonveshir_outcome`: the number, the rule shown or the entry at fault, and the count.
#[repr(C)]
#[derive(Clone, Copy, Debug, PartialEq, Eq)]
pub struct Outcome {
    pub number: u32,
    pub index: u32,
    pub count: u64,
}

impl Outcome {
    /// An outcome that shows a count: bound, none, spent, written or bounded.
    pub fn counted(word: Word, index: usize, count: u64) -> Self {
        Outcome { number: word.number(), index: index as u32, count }
    }

    /// A refusal, which shows no count.
    pub fn refused(word: Word, index: usize) -> Self {
        Self::counted(word, index, 0)
    }

    /// Accepted input.
    pub const ACCEPTED: Outcome = Outcome { number: 0, index: 0, count: 0 };

    /// The outcome's word, if its number has one.
    pub fn word(&self) -> Option<Word> {
        Word::of(self.number)
    }
}

/// `qonveshir_written`: the number, the length of the result, which is 0 unless it is bound, and the
/// count.
#[repr(C)]
#[derive(Clone, Copy, Debug, PartialEq, Eq)]
pub struct Written {
    pub number: u32,
    pub length: u32,
    pub count: u64,
}

impl Written {
    /// A result of so many bytes.
    pub fn bound(length: usize, count: u64) -> Self {
        Written { number: Word::Bound.number(), length: length as u32, count }
    }

    /// None or spent, which show a count and no result.
    pub fn unbound(word: Word, count: u64) -> Self {
        Written { number: word.number(), length: 0, count }
    }

    /// A refusal, which shows no count.
    pub fn refused(word: Word) -> Self {
        Self::unbound(word, 0)
    }

    /// The word, if the number has one.
    pub fn word(&self) -> Option<Word> {
        Word::of(self.number)
    }
}

/// `qonveshir_part`: where an entry lies in its sheet.
#[repr(C)]
#[derive(Clone, Copy, Debug, PartialEq, Eq)]
pub struct Part {
    pub number: u32,
    pub offset: u32,
    pub length: u32,
}

impl Part {
    /// The part's bytes in its sheet.
    pub fn range(&self) -> Range<usize> {
        self.offset as usize..(self.offset as usize + self.length as usize)
    }
}

/// Where a bound pattern's free names and run names lie in the record, and of how many terms they
/// are.
#[derive(Clone, Copy, Debug, PartialEq, Eq)]
pub struct Answer(pub [u16; ANSWER]);

impl Answer {
    /// The part of `?i`, if it is free in the pattern.
    pub fn name(&self, i: usize) -> Option<Range<usize>> {
        assert!(i < NAMES, "names are ?0 to ?31");
        self.part(i)
    }

    /// The part of `@j`, if it is free in the pattern.
    pub fn run(&self, j: usize) -> Option<Range<usize>> {
        assert!(j < RUNS, "run names are @0 to @15");
        self.part(NAMES + j)
    }

    /// The number of terms of `@j`, if it is free in the pattern; a name has one term.
    pub fn terms(&self, j: usize) -> Option<u16> {
        assert!(j < RUNS, "run names are @0 to @15");
        self.entry(NAMES + j).map(|[_, _, terms]| terms)
    }

    fn part(&self, place: usize) -> Option<Range<usize>> {
        let [offset, length, _] = self.entry(place)?.map(usize::from);
        Some(offset..offset + length)
    }

    fn entry(&self, place: usize) -> Option<[u16; ENTRY]> {
        let entry = *self.0[ENTRY * place..].first_chunk().expect("a place of the answer");
        (entry[0] != ABSENT).then_some(entry)
    }
}

/// A sheet of entries, whose directory is right if the sheet is within its limit.
pub fn sheet_of(edition: Edition, entries: &[Vec<u8>]) -> Vec<u8> {
    let mut sheet = (entries.len() as u16 | edition.mark()).to_le_bytes().to_vec();
    let mut offset = 2 + 4 * entries.len();
    for entry in entries {
        sheet.extend((offset as u16).to_le_bytes());
        sheet.extend((entry.len() as u16).to_le_bytes());
        offset += entry.len();
    }
    sheet.extend(entries.concat());
    sheet
}

/// The calls; `include/qonveshir.h` says what each checks, shows and writes. A call with a sheet
/// takes the edition from the sheet, and the converter reads edition 1: of the language they take
/// table and class list alone.
pub trait Library {
    /// Matches one pattern against one record.
    fn match_one(
        &self,
        language: Language,
        pattern: &[u8],
        record: &[u8],
        allowance: u32,
        answer: &mut [u16],
    ) -> Outcome;

    /// Shows the answer after the one with the given run lengths, in elements; [`Answers`] lists
    /// them all.
    fn next(
        &self,
        language: Language,
        pattern: &[u8],
        record: &[u8],
        given: &[u16],
        allowance: u32,
        answer: &mut [u16],
    ) -> Outcome;

    /// Matches one plain pattern against one record, without an allowance.
    fn match_plain(
        &self,
        language: Language,
        pattern: &[u8],
        record: &[u8],
        answer: &mut [u16],
    ) -> Outcome;

    /// Tries the rules of a sheet up to the first that is bound or spent.
    fn match_rules(
        &self,
        language: Language,
        rules: &[u8],
        record: &[u8],
        allowance: u32,
        answer: &mut [u16],
    ) -> Outcome;

    /// Writes a sheet of joined records.
    fn write_sheet(
        &self,
        language: Language,
        records: &[u8],
        lengths: &[u16],
        output: &mut [u8],
    ) -> Outcome;

    /// Shows where an entry lies in a sheet.
    fn entry(&self, sheet: &[u8], index: u32) -> Part;

    /// Checks a sheet of patterns.
    fn check_rules(&self, language: Language, sheet: &[u8]) -> Outcome;

    /// Checks a sheet of records.
    fn check_states(&self, language: Language, sheet: &[u8]) -> Outcome;

    /// Shows how much a pattern can cost at most, or none if it has run names.
    fn cost(&self, language: Language, pattern: &[u8]) -> Outcome;

    /// Writes the stored form of a record.
    fn store(&self, language: Language, record: &[u8], output: &mut [u8]) -> Outcome;

    /// Writes the old form of a stored record.
    fn restore(&self, language: Language, stored: &[u8], output: &mut [u8]) -> Outcome;

    /// Splices an edition 1 record.
    fn splice_record(&self, language: Language, record: &[u8], output: &mut [u8]) -> Outcome;

    /// Splices an edition 1 pattern.
    fn splice_pattern(&self, language: Language, pattern: &[u8], output: &mut [u8]) -> Outcome;

    /// Writes a template with the first answer's parts put in, if the pattern is bound.
    fn apply(
        &self,
        language: Language,
        pattern: &[u8],
        template: &[u8],
        record: &[u8],
        allowance: u32,
        output: &mut [u8],
    ) -> Written;

    /// Shows what [`apply`](Self::apply) shows with an output of [`RECORD_LIMIT`] bytes, and writes
    /// nothing.
    fn look(
        &self,
        language: Language,
        pattern: &[u8],
        template: &[u8],
        record: &[u8],
        allowance: u32,
    ) -> Written;

    /// Writes the least record that satisfies a pattern: of at most `size` bytes, with the fewest, and
    /// of those the first by bytes.
    fn example(
        &self,
        language: Language,
        pattern: &[u8],
        size: u32,
        allowance: u32,
        output: &mut [u8],
    ) -> Written;

    /// Makes a new station with a record as its current one, which keeps none; [`Station`] has buffers
    /// of its own.
    fn station_new(
        &self,
        language: Language,
        record: &[u8],
        station: &mut Labels,
        records: &mut [u8],
    ) -> Outcome;

    /// Keeps a station's current record under a name, in place of what was there.
    fn station_keep(&self, name: u16, station: &mut Labels, records: &mut [u8]) -> Outcome;

    /// Makes the record that is kept under a name current; it is kept still.
    fn station_return(&self, name: u16, station: &mut Labels, records: &mut [u8]) -> Outcome;

    /// Makes current what a template gives for a station's current record, if the pattern is bound.
    fn station_apply(
        &self,
        language: Language,
        pattern: &[u8],
        template: &[u8],
        allowance: u32,
        station: &mut Labels,
        records: &mut [u8],
    ) -> Written;

    /// Shows whether a loader and a sender, who move in turn, must come to a state that satisfies the
    /// goal, whatever the sender does, and by which of the loader's moves first
    /// ([`Outcome::opening`]). The sheets tell the edition.
    #[allow(clippy::too_many_arguments)]
    fn play(
        &self,
        turns: u32,
        language: Language,
        loader: Side,
        sender: Side,
        goal: &[u8],
        record: &[u8],
        allowance: u32,
    ) -> Outcome;

    /// [`example`](Self::example) with a buffer of its own: the record, which is empty unless it is
    /// bound.
    fn least(
        &self,
        language: Language,
        pattern: &[u8],
        size: u32,
        allowance: u32,
    ) -> (Written, Vec<u8>) {
        let mut output = vec![0; EXAMPLE_LIMIT];
        let written = self.example(language, pattern, size, allowance, &mut output);
        output.truncate(written.length as usize);
        (written, output)
    }

    /// [`apply`](Self::apply) with a buffer of its own: what is written, which is empty unless it is
    /// bound.
    fn applied(
        &self,
        language: Language,
        pattern: &[u8],
        template: &[u8],
        record: &[u8],
        allowance: u32,
    ) -> (Written, Vec<u8>) {
        let mut output = vec![0; RECORD_LIMIT];
        let written = self.apply(language, pattern, template, record, allowance, &mut output);
        output.truncate(written.length as usize);
        (written, output)
    }

    /// [`match_one`](Self::match_one) with a buffer of its own, in which every name is absent
    /// unless the outcome is bound.
    fn find(
        &self,
        language: Language,
        pattern: &[u8],
        record: &[u8],
        allowance: u32,
    ) -> (Outcome, Answer) {
        let mut answer = Answer([ABSENT; ANSWER]);
        let outcome = self.match_one(language, pattern, record, allowance, &mut answer.0);
        (outcome, answer)
    }

    /// [`match_plain`](Self::match_plain) with a buffer of its own, as [`find`](Self::find) has.
    fn find_plain(&self, language: Language, pattern: &[u8], record: &[u8]) -> (Outcome, Answer) {
        let mut answer = Answer([ABSENT; ANSWER]);
        let outcome = self.match_plain(language, pattern, record, &mut answer.0);
        (outcome, answer)
    }

    /// Whether an accepted pattern is no template of an accepted one. The record's checks come after
    /// 18, so an empty record tells it.
    fn is_loose(&self, language: Language, pattern: &[u8], template: &[u8]) -> bool {
        self.look(language, pattern, template, &[], 0).word() == Some(Word::Loose)
    }

    /// Whether an accepted pattern is plain. The record's checks come after 23, so an empty record
    /// tells it.
    fn is_plain(&self, language: Language, pattern: &[u8]) -> bool {
        self.find_plain(language, pattern, &[]).0.word() != Some(Word::NotPlain)
    }
}
