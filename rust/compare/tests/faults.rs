//! The comparison finds no difference where there is none, and finds small faults.

use interface::{
    edition_of, Edition, Labels, Language, Library, Outcome, Part, Side, Word, Written, ABSENT,
    ANSWER, COMPLEMENT, EDITION_MARK, ENTRY, FIRST_NAME, LIST, NAMES, NO_MOVE, PASS, RECORD_LIMIT,
    TURNS_LIMIT,
};
use reference::Reference;
use std::slice::ChunksExactMut;

/// What becomes of a class list that is brought with a table.
type Brought = fn(&[u8], &[u8]) -> Vec<u8>;

/// What becomes of a template.
type Template = fn(&[u8]) -> Vec<u8>;

/// What becomes of given run lengths.
type Given = fn(&[u16]) -> Vec<u16>;

/// The independent implementation with what it is brought, shows and writes spoiled.
struct Faulty {
    classes: Brought,
    edition: fn(Edition) -> Edition,
    given: Given,
    sheet: fn(&[u8]) -> Vec<u8>,
    outcome: fn(&mut Outcome),
    answer: fn(&Outcome, &mut [u16]),
    output: fn(&Outcome, &mut [u8]),
    part: fn(&mut Part),
    cost: fn(&mut Outcome),
    stored: fn(&[u8]) -> Vec<u8>,
    plain: fn(&mut Outcome),
    /// What becomes of what is spliced.
    unspliced: fn(Language, &[u8]) -> Vec<u8>,
    splice: fn(&mut Outcome),
    /// Whether 16 is by the symbol instead of its class.
    by_symbol: bool,
    template: Template,
    /// Whether a result is measured before it is spliced.
    early: bool,
    /// What becomes of what a replacement shows, with an output of so many bytes.
    written: fn(&mut Written, usize),
    /// What becomes of its output.
    result: fn(Language, &Written, &mut [u8]),
    example: Example,
    /// What becomes of a station before a call, and after it.
    lent: fn(&mut Labels, &mut Vec<u8>),
    changed: Changed,
    /// What becomes of the number of a change.
    number: fn(u32) -> u32,
    game: Game,
}

/// A game with what it is told and shows spoiled.
#[derive(Clone, Copy)]
struct Game {
    turns: fn(u32) -> u32,
    /// What becomes of a side's templates beside its rules.
    templates: fn(Side) -> Vec<u8>,
    /// Whether the sender begins.
    turned: bool,
    allowance: fn(u32) -> u32,
    shown: fn(&mut Outcome),
}

/// What becomes of a station that a call with a number and a name has changed; then the labels that it
/// had.
type Changed = fn(u32, u16, &mut Labels, &mut [u8], &Labels);

/// The call for an example.
type Example = fn(Language, &[u8], u32, u32, &mut [u8]) -> Written;

const SOUND: Faulty = Faulty {
    classes: |_, classes| classes.to_vec(),
    edition: |edition| edition,
    given: |given| given.to_vec(),
    sheet: |sheet| sheet.to_vec(),
    outcome: |_| (),
    answer: |_, _| (),
    output: |_, _| (),
    part: |_| (),
    cost: |_| (),
    stored: |stored| stored.to_vec(),
    plain: |_| (),
    unspliced: |_, bytes| bytes.to_vec(),
    splice: |_| (),
    by_symbol: false,
    template: |template| template.to_vec(),
    early: false,
    written: |_, _| (),
    result: |_, _, _| (),
    example: |l, p, size, n, output| Reference.example(l, p, size, n, output),
    lent: |_, _| (),
    changed: |_, _, _, _, _| (),
    number: |number| number,
    game: GAME,
};

const GAME: Game = Game {
    turns: |turns| turns,
    templates: |side| side.templates.to_vec(),
    turned: false,
    allowance: |allowance| allowance,
    shown: |_| (),
};

impl Faulty {
    /// A call in the language that becomes of the one that it is told.
    fn told(&self, language: Language, mut call: impl FnMut(Language) -> Outcome) -> Outcome {
        let classes = language.classes.map(|classes| (self.classes)(language.table, classes));
        let edition = (self.edition)(language.edition);
        let language = Language { classes: classes.as_deref(), edition, ..language };
        let mut outcome = call(language);
        if self.by_symbol && outcome.word() == Some(Word::Unspliced) {
            outcome = call(Language { classes: None, ..language });
        }
        (self.outcome)(&mut outcome);
        outcome
    }

    /// A call with an answer.
    fn search(
        &self,
        language: Language,
        a: &mut [u16],
        call: impl Fn(Language, &mut [u16]) -> Outcome,
    ) -> Outcome {
        let outcome = self.told(language, |language| call(language, a));
        (self.answer)(&outcome, a);
        outcome
    }

    /// A call on a station.
    fn change(
        &self,
        name: u16,
        station: &mut Labels,
        records: &mut [u8],
        call: impl FnOnce(&mut Labels, &mut [u8]) -> Outcome,
    ) -> Outcome {
        let (before, mut lent) = (*station, records.to_vec());
        (self.lent)(station, &mut lent);
        let outcome = call(station, &mut lent);
        let room = records.len();
        records.copy_from_slice(&lent[..room]);
        (self.changed)(outcome.number, name, station, records, &before);
        Outcome { number: (self.number)(outcome.number), ..outcome }
    }

    /// A call with an output.
    fn write(
        &self,
        language: Language,
        output: &mut [u8],
        call: impl Fn(Language, &mut [u8]) -> Outcome,
    ) -> Outcome {
        let outcome = self.told(language, |language| call(language, output));
        (self.output)(&outcome, output);
        outcome
    }
}

impl Library for Faulty {
    fn match_one(&self, l: Language, p: &[u8], r: &[u8], n: u32, a: &mut [u16]) -> Outcome {
        self.search(l, a, |l, a| Reference.match_one(l, p, r, n, a))
    }

    fn next(&self, l: Language, p: &[u8], r: &[u8], g: &[u16], n: u32, a: &mut [u16]) -> Outcome {
        let given = (self.given)(g);
        self.search(l, a, |l, a| Reference.next(l, p, r, &given, n, a))
    }

    fn match_plain(&self, l: Language, p: &[u8], r: &[u8], a: &mut [u16]) -> Outcome {
        let mut outcome = self.search(l, a, |l, a| Reference.match_plain(l, p, r, a));
        (self.plain)(&mut outcome);
        outcome
    }

    fn match_rules(&self, l: Language, s: &[u8], r: &[u8], n: u32, a: &mut [u16]) -> Outcome {
        let sheet = (self.sheet)(s);
        self.search(l, a, |l, a| Reference.match_rules(l, &sheet, r, n, a))
    }

    fn store(&self, l: Language, r: &[u8], output: &mut [u8]) -> Outcome {
        self.write(l, output, |l, output| Reference.store(l, r, output))
    }

    fn restore(&self, l: Language, s: &[u8], output: &mut [u8]) -> Outcome {
        let stored = (self.stored)(s);
        self.write(l, output, |l, output| Reference.restore(l, &stored, output))
    }

    fn splice_record(&self, l: Language, r: &[u8], output: &mut [u8]) -> Outcome {
        let record = (self.unspliced)(l, r);
        let mut outcome =
            self.write(l, output, |l, output| Reference.splice_record(l, &record, output));
        (self.splice)(&mut outcome);
        outcome
    }

    fn splice_pattern(&self, l: Language, p: &[u8], output: &mut [u8]) -> Outcome {
        let pattern = (self.unspliced)(l, p);
        let mut outcome =
            self.write(l, output, |l, output| Reference.splice_pattern(l, &pattern, output));
        (self.splice)(&mut outcome);
        outcome
    }

    fn write_sheet(&self, l: Language, r: &[u8], lengths: &[u16], output: &mut [u8]) -> Outcome {
        self.write(l, output, |l, output| Reference.write_sheet(l, r, lengths, output))
    }

    fn apply(
        &self,
        l: Language,
        p: &[u8],
        t: &[u8],
        r: &[u8],
        n: u32,
        output: &mut [u8],
    ) -> Written {
        let mut written = Reference.apply(l, p, &(self.template)(t), r, n, output);
        (self.result)(l, &written, output);
        (self.written)(&mut written, output.len());
        written
    }

    fn look(&self, l: Language, p: &[u8], t: &[u8], r: &[u8], n: u32) -> Written {
        let mut written = Reference.look(l, p, &(self.template)(t), r, n);
        if self.early && written.number == 0 {
            written = Reference.look(l.in_edition(Edition::ONE), p, t, r, n);
        }
        (self.written)(&mut written, RECORD_LIMIT);
        written
    }

    fn example(&self, l: Language, p: &[u8], size: u32, n: u32, output: &mut [u8]) -> Written {
        (self.example)(l, p, size, n, output)
    }

    fn station_new(&self, l: Language, r: &[u8], s: &mut Labels, records: &mut [u8]) -> Outcome {
        self.change(0, s, records, |s, records| Reference.station_new(l, r, s, records))
    }

    fn station_keep(&self, name: u16, s: &mut Labels, records: &mut [u8]) -> Outcome {
        self.change(name, s, records, |s, records| Reference.station_keep(name, s, records))
    }

    fn station_return(&self, name: u16, s: &mut Labels, records: &mut [u8]) -> Outcome {
        self.change(name, s, records, |s, records| Reference.station_return(name, s, records))
    }

    fn station_apply(
        &self,
        l: Language,
        p: &[u8],
        t: &[u8],
        n: u32,
        s: &mut Labels,
        records: &mut [u8],
    ) -> Written {
        let mut written = Written::refused(Word::None);
        self.change(0, s, records, |s, records| {
            written = Reference.station_apply(l, p, t, n, s, records);
            Outcome { number: written.number, index: 0, count: 0 }
        });
        written
    }

    fn play(
        &self,
        turns: u32,
        l: Language,
        loader: Side,
        sender: Side,
        goal: &[u8],
        r: &[u8],
        n: u32,
    ) -> Outcome {
        let Game { turns: other, templates, turned, allowance, shown } = self.game;
        let both = [loader, sender].map(templates);
        let sides = [(loader, &both[0]), (sender, &both[1])]
            .map(|(side, templates)| Side { templates, ..side });
        let [one, two] = if turned { [sides[1], sides[0]] } else { sides };
        let mut outcome = Reference.play(other(turns), l, one, two, goal, r, allowance(n));
        shown(&mut outcome);
        outcome
    }

    fn entry(&self, sheet: &[u8], index: u32) -> Part {
        let mut part = Reference.entry(sheet, index);
        (self.part)(&mut part);
        part
    }

    fn check_rules(&self, l: Language, sheet: &[u8]) -> Outcome {
        let sheet = (self.sheet)(sheet);
        self.told(l, |l| Reference.check_rules(l, &sheet))
    }

    fn check_states(&self, l: Language, sheet: &[u8]) -> Outcome {
        let sheet = (self.sheet)(sheet);
        self.told(l, |l| Reference.check_states(l, &sheet))
    }

    fn cost(&self, l: Language, pattern: &[u8]) -> Outcome {
        let mut outcome = self.told(l, |l| Reference.cost(l, pattern));
        (self.cost)(&mut outcome);
        outcome
    }
}

fn differs(library: Faulty) -> bool {
    let cases = compare::Cases { seed: 7, first: 0, number: 5_000, margin: 24 };
    compare::compare(&library, &[&Reference], cases).is_err()
}

#[test]
fn no_fault_no_difference() {
    assert!(!differs(SOUND));
}

#[test]
fn faults_are_found() {
    let spent = |outcome: &mut Outcome| outcome.count += u64::from(outcome.number == 11);
    let index = |outcome: &mut Outcome| outcome.index *= u32::from(outcome.number == 0);
    let deep = |outcome: &mut Outcome| outcome.number += 2 * u32::from(outcome.number == 5);
    let none = |outcome: &Outcome, answer: &mut [u16]| {
        if outcome.number == 10 {
            answer[ANSWER - 1] ^= 1;
        }
    };
    let past = |outcome: &Outcome, answer: &mut [u16]| {
        if outcome.number == 0 && answer.len() > ANSWER {
            answer[ANSWER] ^= 1;
        }
    };
    let full = |outcome: &Outcome, output: &mut [u8]| {
        if outcome.number == 12 && !output.is_empty() {
            output[0] ^= 1;
        }
    };
    let refused = |part: &mut Part| part.length += u32::from(part.number == 6);
    assert!(differs(Faulty { outcome: spent, ..SOUND }));
    assert!(differs(Faulty { outcome: index, ..SOUND }));
    assert!(differs(Faulty { outcome: deep, ..SOUND }));
    assert!(differs(Faulty { answer: none, ..SOUND }));
    assert!(differs(Faulty { answer: past, ..SOUND }));
    assert!(differs(Faulty { output: full, ..SOUND }));
    assert!(differs(Faulty { part: refused, ..SOUND }));
}

/// The entries of a bound answer.
fn entries<'a>(outcome: &Outcome, answer: &'a mut [u16]) -> ChunksExactMut<'a, u16> {
    let end = if outcome.number == 0 { ANSWER } else { 0 };
    answer[..end].chunks_exact_mut(ENTRY)
}

#[test]
fn faults_of_numbers_of_terms_are_found() {
    let faults: [fn(&Outcome, &mut [u16]); 4] = [
        |outcome, answer| entries(outcome, answer).for_each(|entry| entry[2] = entry[1]),
        |outcome, answer| entries(outcome, answer).take(NAMES).for_each(|entry| entry[2] = 0),
        |outcome, answer| {
            let absent = entries(outcome, answer).filter(|entry| entry[0] == ABSENT);
            absent.for_each(|entry| entry[2] = 1);
        },
        |outcome, answer| {
            let shown = entries(outcome, answer).filter(|entry| entry[0] != ABSENT);
            shown.for_each(|entry| entry[2] = entry[2].max(1));
        },
    ];
    for (i, answer) in faults.into_iter().enumerate() {
        assert!(differs(Faulty { answer, ..SOUND }), "fault {i}");
    }
}

#[test]
fn faults_of_costs_are_found() {
    let less = |outcome: &mut Outcome| outcome.count -= u64::from(outcome.number == 0);
    let none = |outcome: &mut Outcome| outcome.number -= outcome.number & 10;
    let shown = |outcome: &mut Outcome| outcome.count += u64::from(outcome.number == 10);
    for (i, cost) in [less, none, shown].into_iter().enumerate() {
        assert!(differs(Faulty { cost, ..SOUND }), "fault {i}");
    }
    let cases = compare::Cases { seed: 7, first: 0, number: 5_000, margin: 24 };
    let both = Faulty { cost: less, ..SOUND };
    let over = compare::compare(&both, &[&both], cases).err().expect("a count over the bound");
    assert!(over.contains(" over "), "{over}");
}

#[test]
fn faults_of_the_plain_tier_are_found() {
    let without_failing = |outcome: &mut Outcome| outcome.count -= u64::from(outcome.number == 10);
    let taken = |outcome: &mut Outcome| outcome.number -= outcome.number & 23 & 13;
    let counted = |outcome: &mut Outcome| outcome.count += u64::from(outcome.number == 23);
    for (i, plain) in [without_failing, taken, counted].into_iter().enumerate() {
        assert!(differs(Faulty { plain, ..SOUND }), "fault {i}");
    }
}

#[test]
fn faults_of_given_lengths_are_found() {
    let faults: [Given; 5] = [
        |_| Vec::new(),
        |given| given.iter().map(|length| length % 256).collect(),
        |given| given.iter().rev().copied().collect(),
        |given| given[..given.len().min(2)].to_vec(),
        |given| [given, &[0]].concat()[..given.len().max(1)].to_vec(),
    ];
    for (i, given) in faults.into_iter().enumerate() {
        assert!(differs(Faulty { given, ..SOUND }), "fault {i}");
    }
    let unknown = |outcome: &mut Outcome| outcome.count += u64::from(outcome.number == 15);
    assert!(differs(Faulty { outcome: unknown, ..SOUND }));
}

/// The class list of a table in which each symbol is its own class.
fn own(table: &[u8]) -> Vec<u8> {
    (0..table.len()).map(|symbol| symbol as u8).collect()
}

/// A class list with the entries at fault in one way replaced by their own index.
fn mended(classes: &[u8], at_fault: impl Fn(usize, usize) -> bool) -> Vec<u8> {
    let entries = classes.iter().enumerate();
    let mend = |(i, &class): (usize, &u8)| if at_fault(i, class.into()) { i as u8 } else { class };
    entries.map(mend).collect()
}

#[test]
fn faults_of_class_lists_are_found() {
    let faults: [Brought; 7] = [
        |table, _| own(table),
        |table, classes| if classes.is_empty() { own(table) } else { classes.to_vec() },
        |table, classes| classes[..classes.len().min(table.len())].to_vec(),
        |table, classes| [classes, &own(table)[classes.len().min(table.len())..]].concat(),
        |_, classes| mended(classes, |i, class| class > i),
        |_, classes| mended(classes, |_, class| classes.get(class) != Some(&(class as u8))),
        |table, classes| mended(classes, |i, class| table.get(i) != table.get(class)),
    ];
    for (i, classes) in faults.into_iter().enumerate() {
        assert!(differs(Faulty { classes, ..SOUND }), "fault {i}");
    }
    let class = |outcome: &mut Outcome| outcome.count += u64::from(outcome.number == 14);
    assert!(differs(Faulty { outcome: class, ..SOUND }));
}

#[test]
fn faults_of_stored_records_are_found() {
    let spare = |stored: &[u8]| stored[..stored.len().min(8_192)].to_vec();
    assert!(differs(Faulty { stored: spare, ..SOUND }));
    let length = |outcome: &mut Outcome| outcome.number -= 14 * u32::from(outcome.number == 17);
    assert!(differs(Faulty { outcome: length, ..SOUND }));
}

/// A sheet with its count as it becomes of the one that it has.
fn with_count(sheet: &[u8], count: fn(u16) -> u16) -> Vec<u8> {
    let mut sheet = sheet.to_vec();
    if let Some(first) = sheet.first_chunk_mut() {
        *first = count(u16::from_le_bytes(*first)).to_le_bytes();
    }
    sheet
}

#[test]
fn faults_of_editions_are_found() {
    let one: fn(Edition) -> Edition = |_| Edition::ONE;
    let any: fn(Edition) -> Edition = |edition| match edition {
        Edition::TWO => Edition::TWO,
        _ => Edition::ONE,
    };
    let low: fn(Edition) -> Edition = |edition| Edition(edition.0 % 256);
    for (i, edition) in [one, any, low].into_iter().enumerate() {
        assert!(differs(Faulty { edition, ..SOUND }), "fault {i}");
    }
    let unmarked = |sheet: &[u8]| with_count(sheet, |count| count % EDITION_MARK);
    let marked = |sheet: &[u8]| with_count(sheet, |count| count | EDITION_MARK);
    for (i, sheet) in [unmarked, marked].into_iter().enumerate() {
        assert!(differs(Faulty { sheet, ..SOUND }), "sheet {i}");
    }
    assert!(differs(Faulty { by_symbol: true, ..SOUND }));
}

/// A record or pattern with the class of each symbol in its place.
fn merged(language: Language, bytes: &[u8]) -> Vec<u8> {
    let (mut bytes, mut at) = (bytes.to_vec(), 0);
    while at < bytes.len() {
        let symbol = usize::from(bytes[at]);
        if let Some(&class) = language.class_list().get(symbol).filter(|_| bytes[at] < FIRST_NAME) {
            bytes[at] = class;
        }
        at += if language.table.get(symbol) == Some(&LIST) { 2 } else { 1 };
    }
    bytes
}

#[test]
fn faults_of_the_converter_are_found() {
    assert!(differs(Faulty { unspliced: merged, ..SOUND }));
    assert!(differs(Faulty { unspliced: |_, bytes| [bytes, &[0]].concat(), ..SOUND }));
    let full = |outcome: &mut Outcome| outcome.number *= 1 + u32::from(outcome.number == 6);
    let longer = |outcome: &mut Outcome| outcome.count += u64::from(outcome.number == 0);
    for (i, splice) in [full, longer].into_iter().enumerate() {
        assert!(differs(Faulty { splice, ..SOUND }), "fault {i}");
    }
}

#[test]
fn faults_of_templates_are_found() {
    let faults: [Template; 3] = [
        |template| template.iter().copied().filter(|&code| code != COMPLEMENT).collect(),
        |template| template.iter().map(|&code| code.min(FIRST_NAME)).collect(),
        |template| template[..template.len().min(256)].to_vec(),
    ];
    for (i, template) in faults.into_iter().enumerate() {
        assert!(differs(Faulty { template, ..SOUND }), "fault {i}");
    }
    assert!(differs(Faulty { early: true, ..SOUND }));
}

#[test]
fn faults_of_what_a_replacement_shows_are_found() {
    let faults: [fn(&mut Written, usize); 6] = [
        |written, _| written.number -= 14 * u32::from(written.number == 18),
        |written, _| written.count += u64::from(written.number == 18),
        |written, _| written.count += u64::from(written.number == 19),
        |written, _| written.length += u32::from(written.number == 12),
        |written, _| written.length += u32::from(written.number == 11),
        // 12 before 19.
        |written, room| {
            written.number -= 7 * u32::from(written.number == 19 && room < RECORD_LIMIT)
        },
    ];
    for (i, written) in faults.into_iter().enumerate() {
        assert!(differs(Faulty { written, ..SOUND }), "fault {i}");
    }
}

#[test]
fn faults_of_results_are_found() {
    let faults: [fn(Language, &Written, &mut [u8]); 5] = [
        // Touched with 12, with 19, with none, and past the result.
        |_, written, output| touch(written.number == 12, output, 0),
        |_, written, output| touch(written.number == 19, output, 0),
        |_, written, output| touch(written.number == 10, output, 0),
        |_, written, output| touch(written.number == 0, output, written.length as usize),
        // Each symbol's class in its place.
        |language, written, output| {
            let result = &mut output[..written.length as usize];
            result.copy_from_slice(&merged(language, result));
        },
    ];
    for (i, result) in faults.into_iter().enumerate() {
        assert!(differs(Faulty { result, ..SOUND }), "fault {i}");
    }
}

#[test]
fn faults_of_examples_are_found() {
    let faults: [Example; 11] = [
        // A size of 7 accepted, and one byte less than the size.
        |l, p, size, n, o| Reference.example(l, p, size.min(6), n, o),
        |l, p, size, n, o| Reference.example(l, p, size - u32::from(size < 7 && size > 0), n, o),
        // The class list passed over, and the edition.
        |l, p, size, n, o| Reference.example(Language { classes: None, ..l }, p, size, n, o),
        |l, p, size, n, o| match l.edition {
            Edition::TWO => Reference.example(l.in_edition(Edition::ONE), p, size, n, o),
            _ => Reference.example(l, p, size, n, o),
        },
        // A spent candidate passed over, and 22 after one.
        |l, p, size, n, o| match Reference.example(l, p, size, n, o) {
            written if written.number == 11 => Reference.example(l, p, size, u32::MAX, o),
            written => written,
        },
        |l, p, size, n, o| match Reference.example(l, p, size, n, o) {
            written if written.number == 11 => Written::refused(Word::NoExample),
            written => written,
        },
        // The count of the first candidate.
        |l, p, size, n, o| {
            let written = Reference.example(l, p, size, n, o);
            Written { count: written.count.min(1), ..written }
        },
        // 12 before 22.
        |l, p, size, n, o| match Reference.example(l, p, size, n, o) {
            written if written.number == 22 && o.is_empty() => Written::refused(Word::Full),
            written => written,
        },
        // None in place of 22.
        |l, p, size, n, o| match Reference.example(l, p, size, n, o) {
            written if written.number == 22 => Written::refused(Word::None),
            written => written,
        },
        // Another record of as many bytes.
        |l, p, size, n, o| {
            let written = Reference.example(l, p, size, n, o);
            touch(written.number == 0, o, (written.length as usize).saturating_sub(1));
            written
        },
        // Touched past the record.
        |l, p, size, n, o| {
            let written = Reference.example(l, p, size, n, o);
            touch(written.number == 0, o, written.length as usize);
            written
        },
    ];
    for (i, example) in faults.into_iter().enumerate() {
        assert!(differs(Faulty { example, ..SOUND }), "fault {i}");
    }
}

#[test]
fn faults_of_lent_stations_are_found() {
    let faults: [fn(&mut Labels, &mut Vec<u8>); 5] = [
        // 36,863 bytes accepted, a length of 4,097, nine kept, a name twice.
        |_, records| records.resize(records.len() + usize::from(records.len() == 36_863), 0),
        |station, _| station.lengths = station.lengths.map(|n| if n == 4_097 { 1 } else { n }),
        |station, _| station.kept -= u16::from(station.kept == 9),
        |station, _| {
            for i in 1..station.names.len() {
                if station.names[..i].contains(&station.names[i]) {
                    station.names[i] ^= 0x5555;
                }
            }
        },
        // What is not in use is checked too.
        |station, _| {
            if station.lengths.contains(&0) {
                station.lengths[0] = 0;
            }
        },
    ];
    for (i, lent) in faults.into_iter().enumerate() {
        assert!(differs(Faulty { lent, ..SOUND }), "fault {i}");
    }
}

#[test]
fn faults_of_changed_stations_are_found() {
    let faults: [Changed; 6] = [
        // A return that drops the kept one, and a ninth name that replaces the first.
        |number, name, station, _, before| {
            if number == 0 && before.kept == station.kept && station.names[0] == name {
                station.kept = station.kept.saturating_sub(1);
            }
        },
        |number, name, station, _, _| {
            if number == 21 {
                station.names[0] = name;
            }
        },
        // A refused call that alters the current record, and one that alters the labels.
        |number, _, _, records, _| touch(number != 0, records, 0),
        |number, _, station, _, _| station.lengths[8] ^= u16::from(number == 20),
        // A byte past the record, and a keep that goes over the next one.
        |number, _, station, records, _| {
            touch(number == 0, records, station.lengths[0].into());
        },
        |number, name, station, records, before| {
            let kept = usize::from(before.kept);
            touch(number == 0 && station.names[kept % 8] == name, records, 4_096 * (kept + 2));
        },
    ];
    for (i, changed) in faults.into_iter().enumerate() {
        assert!(differs(Faulty { changed, ..SOUND }), "fault {i}");
    }
    let faults: [fn(u32) -> u32; 3] = [
        |number| number + u32::from(number == 20),
        |number| number - u32::from(number == 21),
        |number| number + 3 * u32::from(number == 9),
    ];
    for (i, number) in faults.into_iter().enumerate() {
        assert!(differs(Faulty { number, ..SOUND }), "number {i}");
    }
}

#[test]
fn faults_of_what_a_game_is_told_are_found() {
    let told = |game| differs(Faulty { game, ..SOUND });
    assert!(told(Game { turned: true, ..GAME }));
    let turns: [fn(u32) -> u32; 4] = [
        |turns| turns.min(TURNS_LIMIT),
        |turns| turns % 256,
        |turns| turns + u32::from(turns < TURNS_LIMIT),
        |turns| turns - u32::from(turns == 1),
    ];
    for (i, turns) in turns.into_iter().enumerate() {
        assert!(told(Game { turns, ..GAME }), "turns {i}");
    }
    let templates: [fn(Side) -> Vec<u8>; 2] = [
        // In the rules' edition, and no more than there are rules.
        |side| in_edition(edition_of(side.rules), side.templates),
        |side| as_many(side.rules, side.templates),
    ];
    for (i, templates) in templates.into_iter().enumerate() {
        assert!(told(Game { templates, ..GAME }), "templates {i}");
    }
    // A spent search passed over.
    assert!(told(Game { allowance: |n| n.saturating_add(1), ..GAME }));
}

/// A sheet with the mark of an edition.
fn in_edition(edition: Edition, sheet: &[u8]) -> Vec<u8> {
    match edition {
        Edition::TWO => with_count(sheet, |count| count | EDITION_MARK),
        _ => with_count(sheet, |count| count % EDITION_MARK),
    }
}

/// A sheet with as many entries as another, where it has more.
fn as_many(other: &[u8], sheet: &[u8]) -> Vec<u8> {
    let entries = |sheet: &[u8]| -> Vec<Vec<u8>> {
        let parts = (0..).map(|index| Reference.entry(sheet, index));
        parts.take_while(|part| part.number == 0).map(|part| sheet[part.range()].to_vec()).collect()
    };
    let (number, mut own) = (entries(other).len(), entries(sheet));
    if own.len() <= number {
        return sheet.to_vec();
    }
    own.truncate(number);
    interface::sheet_of(edition_of(sheet), &own)
}

#[test]
fn faults_of_what_a_game_shows_are_found() {
    let faults: [fn(&mut Outcome); 9] = [
        // The goal not tried at the start; a pass shown as no move; another rule than the lowest.
        |outcome| outcome.number += 10 * u32::from(outcome.index == NO_MOVE),
        |outcome| outcome.index -= u32::from(outcome.index == PASS),
        |outcome| outcome.index += u32::from(outcome.number == 0 && outcome.index == 0),
        |outcome| outcome.index -= u32::from((1..NO_MOVE).contains(&outcome.index)),
        |outcome| outcome.number -= u32::from(outcome.number == 11),
        |outcome| outcome.count += u64::from(outcome.number == 11),
        |outcome| outcome.count += u64::from(outcome.number == 0),
        |outcome| outcome.number -= 14 * u32::from(outcome.number == 18),
        |outcome| outcome.index += u32::from(outcome.number == 24),
    ];
    for (i, shown) in faults.into_iter().enumerate() {
        assert!(differs(Faulty { game: Game { shown, ..GAME }, ..SOUND }), "fault {i}");
    }
}

/// Changes a byte, if there is one.
fn touch(wanted: bool, output: &mut [u8], at: usize) {
    if let Some(byte) = output.get_mut(at).filter(|_| wanted) {
        *byte ^= 1;
    }
}
