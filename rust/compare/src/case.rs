//! One call with its inputs, run between margins of random bytes.

use crate::rng::Rng;
use interface::{
    Edition, Labels, Language, Library, Outcome, Part, Side, Word, Written, ENTRY, NAMES,
    RECORD_LIMIT, RUNS,
};
use std::fmt;

/// The calls.
#[derive(Clone, Copy, Debug, PartialEq, Eq)]
pub enum Call {
    Match,
    MatchIn,
    Next,
    NextIn,
    Plain,
    PlainIn,
    Rules,
    RulesIn,
    Write,
    WriteIn,
    Entry,
    CheckRules,
    CheckRulesIn,
    CheckStates,
    CheckStatesIn,
    Cost,
    CostIn,
    Store,
    StoreIn,
    Restore,
    RestoreIn,
    SpliceRecord,
    SpliceRecordIn,
    SplicePattern,
    SplicePatternIn,
    Apply,
    ApplyIn,
    Look,
    LookIn,
    Example,
    ExampleIn,
    StationNew,
    StationNewIn,
    StationKeep,
    StationReturn,
    StationApply,
    StationApplyIn,
    Play,
    PlayIn,
}

/// The calls in their order, with their names.
pub const CALLS: [(Call, &str); 39] = [
    (Call::Match, "match"),
    (Call::MatchIn, "match_in"),
    (Call::Next, "next"),
    (Call::NextIn, "next_in"),
    (Call::Plain, "match_plain"),
    (Call::PlainIn, "match_plain_in"),
    (Call::Rules, "match_rules"),
    (Call::RulesIn, "match_rules_in"),
    (Call::Write, "write_sheet"),
    (Call::WriteIn, "write_sheet_in"),
    (Call::Entry, "entry"),
    (Call::CheckRules, "check_rules"),
    (Call::CheckRulesIn, "check_rules_in"),
    (Call::CheckStates, "check_states"),
    (Call::CheckStatesIn, "check_states_in"),
    (Call::Cost, "cost"),
    (Call::CostIn, "cost_in"),
    (Call::Store, "store"),
    (Call::StoreIn, "store_in"),
    (Call::Restore, "restore"),
    (Call::RestoreIn, "restore_in"),
    (Call::SpliceRecord, "splice_record"),
    (Call::SpliceRecordIn, "splice_record_in"),
    (Call::SplicePattern, "splice_pattern"),
    (Call::SplicePatternIn, "splice_pattern_in"),
    (Call::Apply, "apply"),
    (Call::ApplyIn, "apply_in"),
    (Call::Look, "look"),
    (Call::LookIn, "look_in"),
    (Call::Example, "example"),
    (Call::ExampleIn, "example_in"),
    (Call::StationNew, "station_new"),
    (Call::StationNewIn, "station_new_in"),
    (Call::StationKeep, "station_keep"),
    (Call::StationReturn, "station_return"),
    (Call::StationApply, "station_apply"),
    (Call::StationApplyIn, "station_apply_in"),
    (Call::Play, "play"),
    (Call::PlayIn, "play_in"),
];

impl Call {
    pub fn name(self) -> &'static str {
        CALLS[self as usize].1
    }

    /// Whether the call is told its language.
    pub fn brings(self) -> bool {
        self.name().ends_with("_in")
    }

    /// Whether the call is told the edition.
    pub fn is_told(self) -> bool {
        use Call::*;
        let searches = matches!(self, MatchIn | NextIn | PlainIn | ApplyIn | LookIn | ExampleIn);
        let stations = matches!(self, StationNewIn | StationApplyIn);
        searches || stations || matches!(self, WriteIn | CostIn | StoreIn | RestoreIn)
    }

    /// Whether the call writes bytes.
    fn writes(self) -> bool {
        use Call::*;
        let moves = matches!(self, Store | StoreIn | Restore | RestoreIn);
        let splices =
            matches!(self, SpliceRecord | SpliceRecordIn | SplicePattern | SplicePatternIn);
        let writes = self.gives_a_record() || matches!(self, Write | WriteIn);
        writes || moves || splices || self.is_of_a_station()
    }

    /// Whether the call is lent a station.
    pub fn is_of_a_station(self) -> bool {
        self.name().starts_with("station_")
    }

    /// Whether the call searches and writes a record, whose length it shows.
    fn gives_a_record(self) -> bool {
        use Call::*;
        matches!(self, Apply | ApplyIn | Example | ExampleIn)
    }
}

/// What is special about a case.
#[derive(Clone, Copy, Debug, PartialEq, Eq)]
pub enum Kind {
    LongRecord,
    LongPattern,
    LongSearch,
    ManyComplements,
    OtherBytesThanTerms,
    OneBelow,
    AtTheCount,
    FarAbove,
    OwnClasses,
    SharedClasses,
    ClassesDecide,
    SameByName,
    SameByRun,
    NumbersByName,
    NumbersByRun,
    Empty,
    OneShort,
    OneLong,
    AboveItsIndex,
    NotItsOwnClass,
    UnlikeTableBytes,
    AfterTheOnly,
    AfterTheFirst,
    AfterALater,
    OneLengthLess,
    OneLengthMore,
    AnotherLength,
    NoneUnder,
    NoneAt,
    NoneOver,
    OneUnder,
    OneAt,
    OneOver,
    ManyUnder,
    ManyAt,
    ManyOver,
    BeforeASymbol,
    BeforeAName,
    BeforeARun,
    BeforeNothing,
    ManyElements,
    EmptyRun,
    SameAsFull,
    TwiceOrTwo,
    Complements,
    EditionTwo,
    Mended,
    InAnotherList,
    BelowAComplement,
    UnsplicedByClass,
    UnsplicedLast,
    UnsplicedDeep,
    AnotherEdition,
    ByClass,
    EmptyInnerList,
    MostElements,
    OneElementOver,
    JustEnough,
    OneByteShort,
    OwnNames,
    RuleAsTemplate,
    NotFree,
    WithinAComplement,
    ComplementInTemplate,
    ResultOf255,
    ResultOf256,
    ResultOf4096,
    ResultOf4097,
    Nesting32,
    Nesting33,
    LimitBySplicing,
    ExampleOf1,
    ExampleOf2,
    ExampleOf3,
    ExampleOf4,
    ExampleOf5,
    ExampleOf6,
    ByteLess,
    Alike,
    TwoAlike,
    SpentBefore,
    SpentAlone,
    SizeOf7,
    GameInEditionTwo,
    GameByClass,
    NoTurns,
    SixTurns,
    SevenTurns,
    NoMoveNeeded,
    FirstRule,
    LaterRule,
    PassFirst,
    PassesOnly,
    OutgrownMove,
    LoadersResult,
    SendersResult,
    AtTheDecidingCount,
    OneBelowTheDecidingCount,
    UnlikeNumbers,
    UnlikeEditions,
    LooseMove,
    FaultInLoaderRules,
    FaultInLoaderTemplates,
    FaultInSenderRules,
    FaultInSenderTemplates,
    FaultInGoal,
    FaultInStart,
    ManyCalls,
    UnusedDamage,
    NineKept,
    LengthOf0,
    LengthOf4097,
    NameTwice,
    Room36863,
    RoomAndDamage,
    FullShelf,
    InPlace,
    LengthOf4096,
}

/// A call on a station; an apply has the case's pattern, template and allowance.
#[derive(Clone, Copy, Debug)]
pub enum Change {
    Keep(u16),
    Return(u16),
    Apply,
}

/// What a call on a station is lent.
#[derive(Clone, Debug, Default)]
pub struct Lent {
    pub labels: Labels,
    /// Contents of the records, by their places.
    pub records: Vec<(usize, Vec<u8>)>,
    /// The calls made on it before.
    pub before: Vec<Change>,
    /// The name to keep a record under or return to.
    pub name: u16,
}

/// A call and its inputs.
#[derive(Debug)]
pub struct Case {
    pub call: Call,
    /// The edition, where the call is told it.
    pub edition: Edition,
    /// Table, class list, pattern, template, record, sheets or records, as many as the call has, in
    /// its order.
    pub inputs: Vec<Vec<u8>>,
    /// The writer's lengths, or those of a given answer.
    pub lengths: Vec<u16>,
    /// The allowance or the entry's index.
    pub number: u32,
    /// The size of an example.
    pub size: u32,
    /// What is special about it, as far as it was made so.
    pub kinds: Vec<Kind>,
    /// The length of the answer, of the output or of a station's records.
    pub room: usize,
    /// The station, of a call on one.
    pub station: Lent,
    /// The turns of a game.
    pub turns: u32,
}

/// What a call shows, and all memory that was in its reach, margins included.
#[derive(PartialEq, Eq)]
pub struct Shown {
    pub result: [u64; 3],
    /// What the calls made before on a station show.
    before: Vec<[u64; 3]>,
    memory: Memory,
}

/// Buffers with elements of random contents on each side, as many as the margin.
#[derive(PartialEq, Eq)]
struct Memory {
    margin: usize,
    inputs: Vec<Vec<u8>>,
    lengths: Vec<u16>,
    output: Vec<u8>,
    answer: Vec<u16>,
    /// A station's labels between others.
    labels: [Labels; 3],
}

impl Case {
    /// A case of a call that takes inputs alone.
    pub fn new(call: Call, inputs: Vec<Vec<u8>>) -> Self {
        Case {
            call,
            edition: Edition::ONE,
            inputs,
            lengths: Vec::new(),
            number: 0,
            size: 0,
            kinds: Vec::new(),
            room: 0,
            station: Lent::default(),
            turns: 0,
        }
    }

    /// Runs the call; the same `fill` gives the same margins and buffers.
    pub fn run(&self, library: &dyn Library, margin: usize, fill: u64) -> Shown {
        let rng = &mut Rng::new(fill, 0);
        let (output, answer) = if self.call.writes() { (self.room, 0) } else { (0, self.room) };
        let mut memory = Memory {
            margin,
            inputs: self.inputs.iter().map(|input| lent(rng, margin, input, Rng::byte)).collect(),
            lengths: lent(rng, margin, &self.lengths, Rng::word),
            output: rng.bytes(output + 2 * margin),
            answer: filled(rng, margin, answer, Rng::word),
            labels: [labels(rng), self.station.labels, labels(rng)],
        };
        let output = within_mut(&mut memory.output, margin);
        for (place, record) in &self.station.records {
            let start = (place * RECORD_LIMIT).min(output.len());
            let end = (start + record.len()).min(output.len());
            output[start..end].copy_from_slice(&record[..end - start]);
        }
        let calls =
            self.station.before.iter().map(|&change| self.call(library, change, &mut memory));
        let before = calls.collect();
        let result = self.call(library, self.change(), &mut memory);
        Shown { result, before, memory }
    }

    /// The case's own call, where it is one on a station that there is.
    fn change(&self) -> Change {
        match self.call {
            Call::StationKeep => Change::Keep(self.station.name),
            Call::StationReturn => Change::Return(self.station.name),
            _ => Change::Apply,
        }
    }

    /// How many bytes the call writes.
    pub fn length(&self, library: &dyn Library) -> usize {
        let [_, length, count] = self.run(library, 0, 0).result;
        if self.call.gives_a_record() {
            length as usize
        } else {
            count as usize
        }
    }

    /// What the call can count at most, where it is a match of a pattern that has such a bound.
    pub fn bound(&self, library: &dyn Library) -> Option<u64> {
        use Call::*;
        if self.inputs.is_empty() {
            return None;
        }
        let inputs: Vec<&[u8]> = self.inputs.iter().map(Vec::as_slice).collect();
        let cost = match (self.call, self.language(&inputs)) {
            (
                Match | MatchIn | Next | NextIn | StationApply | StationApplyIn,
                (language, [pattern, _]),
            )
            | (Apply | ApplyIn | Look | LookIn, (language, [pattern, _, _]))
            | (Example | ExampleIn, (language, [pattern])) => library.cost(language, pattern),
            _ => return None,
        };
        (cost.word() == Some(Word::Bound)).then_some(cost.count)
    }

    /// The language that the first inputs are, and the others.
    fn language<'a, 'b>(&self, inputs: &'b [&'a [u8]]) -> (Language<'a>, &'b [&'a [u8]]) {
        let simple = Language::simple(inputs[0]).in_edition(self.edition);
        match self.call.brings() {
            false => (simple, &inputs[1..]),
            true => (simple.with_classes(inputs[1]), &inputs[2..]),
        }
    }

    /// Makes the case's call, or a change of its station.
    fn call(&self, library: &dyn Library, change: Change, memory: &mut Memory) -> [u64; 3] {
        use Call::*;
        let Memory { margin, inputs, lengths, output, answer, labels: [_, labels, _] } = memory;
        let margin = *margin;
        let (output, answer) = (within_mut(output, margin), within_mut(answer, margin));
        let inputs: Vec<&[u8]> = inputs.iter().map(|input| within(input, margin)).collect();
        let (lengths, n) = (within(lengths, margin), self.number);
        match change {
            Change::Keep(name) => return outcome(library.station_keep(name, labels, output)),
            Change::Return(name) => return outcome(library.station_return(name, labels, output)),
            Change::Apply => {}
        }
        let (l, inputs) = match (self.call, &inputs[..]) {
            (Entry, [sheet]) => return part(library.entry(sheet, n)),
            (_, inputs) => self.language(inputs),
        };
        // p: pattern, t: template, r: record, s: sheet.
        outcome(match (self.call, inputs) {
            (Apply | ApplyIn, [p, t, r]) => return written(library.apply(l, p, t, r, n, output)),
            (Look | LookIn, [p, t, r]) => return written(library.look(l, p, t, r, n)),
            (Example | ExampleIn, [p]) => {
                return written(library.example(l, p, self.size, n, output));
            }
            (StationApply | StationApplyIn, [p, t]) => {
                return written(library.station_apply(l, p, t, n, labels, output));
            }
            (StationNew | StationNewIn, [r]) => library.station_new(l, r, labels, output),
            (Match | MatchIn, [p, r]) => library.match_one(l, p, r, n, answer),
            (Next | NextIn, [p, r]) => library.next(l, p, r, lengths, n, answer),
            (Plain | PlainIn, [p, r]) => library.match_plain(l, p, r, answer),
            (Rules | RulesIn, [s, r]) => library.match_rules(l, s, r, n, answer),
            (Write | WriteIn, [records]) => library.write_sheet(l, records, lengths, output),
            (CheckRules | CheckRulesIn, [s]) => library.check_rules(l, s),
            (CheckStates | CheckStatesIn, [s]) => library.check_states(l, s),
            (Cost | CostIn, [p]) => library.cost(l, p),
            (Store | StoreIn, [r]) => library.store(l, r, output),
            (Restore | RestoreIn, [r]) => library.restore(l, r, output),
            (SpliceRecord | SpliceRecordIn, [r]) => library.splice_record(l, r, output),
            (SplicePattern | SplicePatternIn, [p]) => library.splice_pattern(l, p, output),
            (Play | PlayIn, [sheets @ .., goal, r]) => {
                let [loader, sender] = sides(sheets);
                library.play(self.turns, l, loader, sender, goal, r, n)
            }
            _ => panic!("{self}: a wrong number of inputs"),
        })
    }
}

/// The sides of a game, whose sheets are the loader's, then the sender's.
pub fn sides<'a>(sheets: &[&'a [u8]]) -> [Side<'a>; 2] {
    [0, 2].map(|first| Side { rules: sheets[first], templates: sheets[first + 1] })
}

fn outcome(outcome: Outcome) -> [u64; 3] {
    [outcome.number.into(), outcome.index.into(), outcome.count]
}

fn written(written: Written) -> [u64; 3] {
    [written.number.into(), written.length.into(), written.count]
}

fn part(part: Part) -> [u64; 3] {
    [part.number.into(), part.offset.into(), part.length.into()]
}

/// Labels of random contents.
fn labels(rng: &mut Rng) -> Labels {
    Labels { kept: rng.word(), names: [rng.word(); 8], lengths: [rng.word(); 9] }
}

/// A copy of an input between margins.
fn lent<T: Copy>(rng: &mut Rng, margin: usize, input: &[T], one: impl Fn(&mut Rng) -> T) -> Vec<T> {
    let mut buffer = filled(rng, margin, input.len(), one);
    within_mut(&mut buffer, margin).copy_from_slice(input);
    buffer
}

/// A buffer of random contents between margins.
fn filled<T>(rng: &mut Rng, margin: usize, room: usize, one: impl Fn(&mut Rng) -> T) -> Vec<T> {
    (0..room + 2 * margin).map(|_| one(rng)).collect()
}

fn within<T>(buffer: &[T], margin: usize) -> &[T] {
    &buffer[margin..buffer.len() - margin]
}

fn within_mut<T>(buffer: &mut [T], margin: usize) -> &mut [T] {
    let end = buffer.len() - margin;
    &mut buffer[margin..end]
}

impl Shown {
    /// Whether a bound answer shows a run with another number of bytes than of terms.
    pub fn has_other_bytes_than_terms(&self) -> bool {
        let entries = within(&self.memory.answer, self.memory.margin).chunks_exact(ENTRY);
        entries.take(NAMES + RUNS).skip(NAMES).any(|entry| entry[1] != entry[2])
    }

    /// Where two runs differ.
    pub fn difference(&self, other: &Shown) -> String {
        let mut text =
            format!("number, index or length, count: {:?} and {:?}\n", self.result, other.result);
        let (one, two, margin) = (&self.memory, &other.memory, self.memory.margin);
        for (i, (one, two)) in one.inputs.iter().zip(&two.inputs).enumerate() {
            text += &place(&format!("input {i}"), margin, one, two);
        }
        text += &place("lengths", margin, &one.lengths, &two.lengths);
        text += &place("output", margin, &one.output, &two.output);
        text += &place("calls before", 0, &self.before, &other.before);
        text += &place("labels", 1, &one.labels, &two.labels);
        text + &place("answer", margin, &one.answer, &two.answer)
    }
}

/// The first place at which two buffers differ, counted from the buffer's start.
fn place<T: PartialEq + fmt::Debug>(name: &str, margin: usize, one: &[T], two: &[T]) -> String {
    let mut pairs = one.iter().zip(two).enumerate();
    pairs.find(|(_, (one, two))| one != two).map_or(String::new(), |(i, (a, b))| {
        let (at, end) = (i as isize - margin as isize, one.len() - 2 * margin);
        format!("{name} of length {end}, at {at}: {a:?} and {b:?}\n")
    })
}

impl fmt::Display for Case {
    fn fmt(&self, f: &mut fmt::Formatter) -> fmt::Result {
        write!(f, "{}", self.call.name())?;
        if self.call.is_told() {
            write!(f, " {}", self.edition.0)?;
        }
        for input in &self.inputs {
            f.write_str(if input.is_empty() { " -" } else { " " })?;
            input.iter().try_for_each(|byte| write!(f, "{byte:02X}"))?;
        }
        let Case { lengths, number, size, room, .. } = self;
        write!(f, ", lengths {lengths:?}, number {number}, size {size}, room {room}")?;
        if self.call.is_of_a_station() {
            write!(f, ", {:?}", self.station)?;
        }
        match self.call {
            Call::Play | Call::PlayIn => write!(f, ", turns {}", self.turns),
            _ => Ok(()),
        }
    }
}
