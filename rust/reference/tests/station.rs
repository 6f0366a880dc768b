//! The station: what each call changes to the last byte, refusals in their order, and lists of calls.

use interface::{
    Edition, Labels, Language, Library, Outcome, Station, Word, Written, KEPT_LIMIT, LIST,
    RECORD_LIMIT, STATION_ROOM,
};
use reference::Reference;
use std::collections::HashMap;

const TABLE: [u8; 4] = [0, 0, 1, LIST];

fn simple() -> Language<'static> {
    Language::simple(&TABLE)
}

/// A station with this record, in buffers of other contents.
fn begun(record: &[u8]) -> (Labels, Vec<u8>) {
    let mut labels = Labels { kept: 77, names: [5; 8], lengths: [9; 9] };
    let mut records = vec![7; STATION_ROOM + 3];
    let outcome = Reference.station_new(simple(), record, &mut labels, &mut records);
    assert_eq!(outcome, Outcome::ACCEPTED);
    (labels, records)
}

#[test]
fn each_call_changes_what_it_says_and_no_other_byte() {
    let (mut labels, mut records) = begun(&[3, 2, 0, 1]);
    let mut expected = (
        Labels { kept: 0, names: [5; 8], lengths: [4, 9, 9, 9, 9, 9, 9, 9, 9] },
        [&[3, 2, 0, 1][..], &vec![7; STATION_ROOM - 1]].concat(),
    );
    assert!((labels, records.clone()) == expected);

    assert_eq!(Reference.station_keep(60, &mut labels, &mut records), Outcome::ACCEPTED);
    expected.0.kept = 1;
    expected.0.names[0] = 60;
    expected.0.lengths[1] = 4;
    expected.1[RECORD_LIMIT..][..4].copy_from_slice(&[3, 2, 0, 1]);
    assert!((labels, records.clone()) == expected);

    // gates(@0, shut) => gate(open), which is shorter.
    let apply = |labels: &mut Labels, records: &mut [u8]| {
        Reference.station_apply(simple(), &[3, 2, 232, 1], &[2, 0], 9, labels, records)
    };
    assert_eq!(apply(&mut labels, &mut records), Written::bound(2, 5));
    expected.0.lengths[0] = 2;
    expected.1[..2].copy_from_slice(&[2, 0]);
    assert!((labels, records.clone()) == expected);

    // A second time it is none, and shows its count.
    assert_eq!(apply(&mut labels, &mut records), Written::unbound(Word::None, 1));
    assert!((labels, records.clone()) == expected);

    assert_eq!(Reference.station_return(60, &mut labels, &mut records), Outcome::ACCEPTED);
    expected.0.lengths[0] = 4;
    expected.1[..4].copy_from_slice(&[3, 2, 0, 1]);
    assert!((labels, records) == expected);
}

/// The words of the calls on a station with so many bytes lent, which none of them changes.
fn refused(labels: Labels, room: usize) -> [Option<Word>; 3] {
    let (before, mut records) = (labels, vec![0; room]);
    let mut labels = labels;
    let words = [
        Reference.station_keep(3, &mut labels, &mut records).word(),
        Reference.station_return(3, &mut labels, &mut records).word(),
        Reference.station_apply(simple(), &[], &[], 9, &mut labels, &mut records).word(),
    ];
    assert!(labels == before && records.iter().all(|&byte| byte == 0));
    words
}

#[test]
fn refusals_in_their_order() {
    let sound = Labels {
        kept: 2,
        names: [1, 2, 2, 0, 0, 0, 0, 0],
        lengths: [1, 4096, 2, 0, 5000, 0, 0, 0, 0],
    };
    // What is not in use may be anything.
    let (mut labels, mut records) = (sound, vec![0; STATION_ROOM]);
    let called = [
        Reference.station_return(3, &mut labels, &mut records).word(),
        Reference.station_apply(simple(), &[], &[], 9, &mut labels, &mut records).word(),
        Reference.station_keep(3, &mut labels, &mut records).word(),
    ];
    assert_eq!(called, [Word::NoName, Word::Short, Word::Bound].map(Some));
    let broken = [
        Labels { kept: 9, ..sound },
        Labels { kept: u16::MAX, ..sound },
        Labels { kept: 3, ..sound },
        Labels { names: [2; 8], ..sound },
        Labels { lengths: [0, 1, 1, 1, 1, 1, 1, 1, 1], ..sound },
        Labels { lengths: [1, 1, 0, 1, 1, 1, 1, 1, 1], ..sound },
        Labels { lengths: [1, 4097, 1, 1, 1, 1, 1, 1, 1], ..sound },
    ];
    for labels in broken {
        assert_eq!(refused(labels, STATION_ROOM), [Some(Word::Directory); 3], "{labels:?}");
        assert_eq!(refused(labels, STATION_ROOM - 1), [Some(Word::Full); 3], "{labels:?}");
    }
    // A new station is made whatever the old one was, and 12 comes before the table's check.
    let new = |language, record: &[u8], room| {
        let (mut labels, mut records) = (broken[0], vec![0; room]);
        let word = Reference.station_new(language, record, &mut labels, &mut records).word();
        assert!(word == Some(Word::Bound) || labels == broken[0]);
        word.unwrap()
    };
    let other = simple().in_edition(Edition(0));
    assert_eq!(new(other, &[], 0), Word::Directory);
    assert_eq!(new(Language::simple(&[9]), &[], STATION_ROOM - 1), Word::Full);
    assert_eq!(new(Language::simple(&[9]), &[], STATION_ROOM), Word::Table);
    assert_eq!(new(simple().with_classes(&[]), &[], STATION_ROOM), Word::Class);
    assert_eq!(new(simple(), &[3, 1], STATION_ROOM), Word::Short);
    assert_eq!(
        new(simple().in_edition(Edition::TWO), &[3, 1, 3, 0], STATION_ROOM),
        Word::Unspliced
    );
    assert_eq!(new(simple(), &[0], STATION_ROOM), Word::Bound);
    let mut station = Station::new(&Reference, simple(), &[0]).unwrap();
    assert_eq!(station.apply(other, &[200], &[200], 9).word(), Some(Word::Directory));
}

#[test]
fn eight_names_and_a_ninth() {
    let mut station = Station::new(&Reference, simple(), &[0]).unwrap();
    for name in 0..KEPT_LIMIT as u16 {
        assert_eq!(station.keep(name * 9), Outcome::ACCEPTED);
    }
    assert_eq!(station.names(), [0, 9, 18, 27, 36, 45, 54, 63]);
    assert_eq!(station.apply(simple(), &[200], &[2, 200], 1), Written::bound(2, 1));
    assert_eq!(station.keep(1), Outcome::refused(Word::Shelf, 0));
    assert_eq!(station.kept(1), None);
    // A name that is kept is replaced in place.
    assert_eq!(station.keep(27), Outcome::ACCEPTED);
    assert_eq!(station.names(), [0, 9, 18, 27, 36, 45, 54, 63]);
    assert_eq!([station.kept(18), station.kept(27)], [Some(&[0][..]), Some(&[2, 0])]);
    assert_eq!(station.return_to(1), Outcome::refused(Word::NoName, 0));
    assert_eq!(station.current(), [2, 0]);
    assert_eq!(station.return_to(63), Outcome::ACCEPTED);
    assert_eq!((station.current(), station.kept(63)), (&[0][..], Some(&[0][..])));
}

#[test]
fn an_apply_that_is_not_bound_alters_nothing() {
    let deep = [vec![2; 31], vec![0]].concat();
    let mut station = Station::new(&Reference, simple(), &deep).unwrap();
    for (pattern, template, allowance, shown) in [
        (&[3, 0][..], &[0][..], 9, Written::unbound(Word::None, 1)),
        (&[2, 200], &[0], 1, Written::unbound(Word::Spent, 1)),
        (&[200], &[201], 9, Written::refused(Word::Loose)),
        (&[200], &[2, 200], 9, Written::refused(Word::Outgrown)),
        (&[9], &[200], 9, Written::refused(Word::Code)),
        (&[200], &[9], 9, Written::refused(Word::Code)),
    ] {
        assert_eq!(station.apply(simple(), pattern, template, allowance), shown);
        assert_eq!((station.current(), station.names()), (&deep[..], &[][..]));
    }
    assert_eq!(station.apply(simple(), &[200], &[3, 2, 200, 0], 9).word(), Some(Word::Outgrown));
    assert_eq!(station.apply(simple(), &[2, 200], &[200], 9), Written::bound(31, 2));
}

/// A small generator of numbers (xorshift64).
struct Draw(u64);

impl Draw {
    fn below(&mut self, limit: usize) -> usize {
        self.0 ^= self.0 << 13;
        self.0 ^= self.0 >> 7;
        self.0 ^= self.0 << 17;
        (self.0 >> 33) as usize % limit
    }
}

/// After every list of calls the current record and the kept ones are what the accepted calls say.
#[test]
fn lists_of_calls() {
    let moves: [(&[u8], &[u8]); 4] = [
        (&[200], &[2, 200]),
        (&[2, 200], &[200]),
        (&[3, 1, 232], &[3, 2, 232, 0]),
        (&[200], &[3, 1, 200]),
    ];
    let mut draw = Draw(9);
    for _ in 0..40 {
        let mut station = Station::new(&Reference, simple(), &[0]).unwrap();
        let (mut current, mut kept) = (vec![0], HashMap::new());
        for _ in 0..60 {
            let name = draw.below(11) as u16;
            match draw.below(4) {
                0 => {
                    let room = kept.contains_key(&name) || kept.len() < KEPT_LIMIT;
                    assert_eq!(station.keep(name).number == 0, room);
                    if room {
                        kept.insert(name, current.clone());
                    }
                }
                1 => {
                    assert_eq!(station.return_to(name).number == 0, kept.contains_key(&name));
                    current = kept.get(&name).unwrap_or(&current).clone();
                }
                _ => {
                    let (pattern, template) = moves[draw.below(4)];
                    let (written, next) =
                        Reference.applied(simple(), pattern, template, &current, 50);
                    assert_eq!(station.apply(simple(), pattern, template, 50), written);
                    current = if written.number == 0 { next } else { current };
                }
            }
            assert_eq!(station.current(), current);
            assert_eq!(station.names().len(), kept.len());
            assert!(kept.iter().all(|(&name, record)| station.kept(name) == Some(record)));
        }
    }
}
