//! The proved library agrees with the independent implementation; `compare` tries far more cases.

#![cfg(feature = "link")]

use compare::Cases;
use interface::{
    Answer, Answers, Edition, Labels, Language, Library, Outcome, Side, Written, ABSENT, ANSWER,
    STATION_ROOM,
};
use proved::Proved;
use reference::{Reference, Shortcuts};

#[test]
fn no_difference() {
    let cases = Cases { seed: 3, first: 0, number: 5_000, margin: 24 };
    let compared = compare::compare(&Proved, &[&Shortcuts, &Reference], cases);
    assert_eq!(compared.err(), None);
}

/// What the calls for every answer of `gates(@0, @1, @2)` come to, on a list of so many elements.
fn listed(
    library: &dyn Library,
    elements: u8,
    allowance: u32,
) -> Vec<Result<(Answer, u64), Outcome>> {
    let record = [vec![1, elements], vec![0; elements.into()]].concat();
    let language = Language::simple(&[0, 255]);
    Answers::new(library, language, &[1, 3, 232, 233, 234], &record, allowance).collect()
}

#[test]
fn every_answer() {
    for (elements, number) in [(0, 1), (1, 3), (12, 91), (60, 1_891)] {
        let answers = listed(&Proved, elements, 100_000);
        assert_eq!(answers.iter().filter(|answer| answer.is_ok()).count(), number);
        assert_eq!(answers.len(), number);
        assert!(answers == listed(&Reference, elements, 100_000), "{elements} elements");
    }
    let spent = listed(&Proved, 12, 17);
    assert!(spent.last().is_some_and(Result::is_err));
    assert_eq!(spent, listed(&Reference, 12, 17));
}

/// Each call takes the form that the language asks for: with and without a class list, in both
/// editions and in one that there is not.
#[test]
fn every_language() {
    let table = [0, 255, 255];
    // open, a list, a list in a list of its symbol, and of the other.
    let all: [&[u8]; 4] = [&[0], &[1, 1, 0], &[1, 2, 0, 1, 0], &[1, 2, 2, 0, 0]];
    let simple = Language::simple(&table);
    for language in [simple, simple.with_classes(&[0, 1, 1]), simple.with_classes(&[0])] {
        for edition in [Edition::ONE, Edition::TWO, Edition(3)] {
            for bytes in all {
                let language = language.in_edition(edition);
                let [one, two] = [&Proved as &dyn Library, &Reference]
                    .map(|library| shown_by(library, language, bytes));
                assert_eq!(one, two, "{language:?}, {bytes:?}");
            }
        }
    }
}

/// A call with an answer and an output.
type Called<'a> = dyn Fn(&mut [u16], &mut [u8]) -> Outcome + 'a;

/// What a call shows, and the answer and the output after it.
type Shown = (Outcome, Vec<u16>, Vec<u8>);

/// What each call with a language shows and writes.
fn shown_by(library: &dyn Library, l: Language, bytes: &[u8]) -> Vec<Shown> {
    let sheet = interface::sheet_of(l.edition, &[bytes.to_vec()]);
    let side = Side { rules: &sheet, templates: &sheet };
    let calls: [&Called; 18] = [
        &|a, _| library.match_one(l, bytes, bytes, 99, a),
        &|a, _| library.next(l, bytes, bytes, &[], 99, a),
        &|a, _| library.match_plain(l, bytes, bytes, a),
        &|a, _| library.match_rules(l, &sheet, bytes, 99, a),
        &|_, o| library.write_sheet(l, bytes, &[bytes.len() as u16], o),
        &|_, _| library.check_rules(l, &sheet),
        &|_, _| library.check_states(l, &sheet),
        &|_, _| library.cost(l, bytes),
        &|_, o| library.store(l, bytes, o),
        &|_, o| library.restore(l, bytes, o),
        &|_, o| library.splice_record(l, bytes, o),
        &|_, o| library.splice_pattern(l, bytes, o),
        &|_, o| as_outcome(library.apply(l, bytes, bytes, bytes, 99, o)),
        &|_, _| as_outcome(library.look(l, bytes, bytes, bytes, 99)),
        &|_, o| as_outcome(library.example(l, bytes, 5, 99, o)),
        &|_, o| with_station(o, |labels, records| library.station_new(l, bytes, labels, records)),
        &|_, o| {
            with_station(o, |labels, records| {
                labels.lengths[0] = bytes.len() as u16;
                records[..bytes.len()].copy_from_slice(bytes);
                as_outcome(library.station_apply(l, bytes, bytes, 99, labels, records))
            })
        },
        &|_, _| library.play(3, l, side, side, bytes, &[0], 99),
    ];
    let shown = calls.map(|call| {
        let (mut answer, mut output) = (vec![ABSENT; ANSWER], vec![7; 20]);
        (call(&mut answer, &mut output), answer, output)
    });
    shown.to_vec()
}

/// What a call on a station shows; its labels and the front of its records go to the output.
fn with_station(
    output: &mut [u8],
    call: impl FnOnce(&mut Labels, &mut [u8]) -> Outcome,
) -> Outcome {
    let (mut labels, mut records) = (Labels::default(), vec![7; STATION_ROOM]);
    let outcome = call(&mut labels, &mut records);
    output.copy_from_slice(&records[..output.len()]);
    output[19] = labels.lengths[0] as u8;
    outcome
}

/// What a call that gives a record shows, with its length as the index.
fn as_outcome(written: Written) -> Outcome {
    Outcome { number: written.number, index: written.length, count: written.count }
}
