//! The random cases of the stored form.

use crate::case::{Call, Case, Kind};
use crate::cases::with_room;
use crate::make::{damaged, Maker};
use crate::rng::Rng;
use crate::told::{Forms, Told};
use interface::{Edition, Language, Library, LIST, RECORD_LIMIT, STORED_LIMIT};

/// What becomes of a record before it is moved, and a further kind of it.
type Turn = fn(&mut Rng, &Told, Vec<u8>, &dyn Library) -> (Vec<u8>, Option<Kind>);

/// A move to the stored form.
pub fn store_case(rng: &mut Rng, table: Vec<u8>, library: &dyn Library) -> Case {
    moved(rng, table, library, [Call::Store, Call::StoreIn], |_, _, record, _| (record, None))
}

/// A move back.
pub fn restore_case(rng: &mut Rng, table: Vec<u8>, library: &dyn Library) -> Case {
    moved(rng, table, library, [Call::Restore, Call::RestoreIn], stored)
}

/// A move of what a record is turned into, whose output has a room around what is written.
fn moved(rng: &mut Rng, table: Vec<u8>, library: &dyn Library, forms: Forms, turned: Turn) -> Case {
    let told = Told::new(rng, table, forms, false);
    let record = Maker::new(rng, told.table()).record();
    let ((_, record), kind) = told.mended_pair(rng, library, (Vec::new(), record));
    let record = told.classes.exchanged(rng, record);
    let mut kinds = told.kinds(&[&record]);
    kinds.extend(kind);
    let (bytes, kind) = turned(rng, &told, record, library);
    kinds.extend(kind);
    let case = told.case(rng, vec![bytes], kinds);
    with_room(rng, case, library)
}

/// A stored record, now and then unspliced at its end.
fn stored(
    rng: &mut Rng,
    told: &Told,
    record: Vec<u8>,
    library: &dyn Library,
) -> (Vec<u8>, Option<Kind>) {
    let wanted = told.edition == Edition::TWO && rng.chance(5);
    match told.unspliced(rng, true).filter(|_| wanted) {
        Some((bytes, kind)) => (bytes, Some(kind)),
        None => (with_fault(rng, told.table(), record, library), None),
    }
}

/// A stored record, mostly with a fault.
fn with_fault(rng: &mut Rng, table: &[u8], record: Vec<u8>, library: &dyn Library) -> Vec<u8> {
    if rng.chance(2) {
        let length = STORED_LIMIT + rng.between(0, 2);
        return Maker::new(rng, table).full(length);
    }
    if rng.chance(3) {
        return long(table, rng.pick(&[0, 1, 2]));
    }
    let mut bytes = vec![0; STORED_LIMIT];
    let written = library.store(Language::simple(table), &record, &mut bytes);
    if written.number != 0 {
        return record;
    }
    bytes.truncate(written.count as usize);
    match rng.below(100) {
        0..=44 => bytes,
        45..=74 => wrong_length(rng, table, bytes),
        75..=79 => {
            let wrong = wrong_length(rng, table, bytes);
            damaged(rng, wrong)
        }
        _ => damaged(rng, bytes),
    }
}

/// The stored form of a record of so many bytes over its limit, where the table allows it.
fn long(table: &[u8], over: usize) -> Vec<u8> {
    let place = |children| table.iter().position(|&c| c == children);
    let (Some(list), Some(leaf)) = (place(LIST), place(0)) else { return vec![0] };
    let row = |n: usize| [vec![list as u8, n as u8, n as u8, 0], vec![leaf as u8; n]].concat();
    let rows = [row(255).repeat(15), row(RECORD_LIMIT + over - 2 - 15 * 257 - 2)].concat();
    let length = (rows.len() as u16).to_le_bytes();
    [vec![list as u8, 16], length.to_vec(), rows].concat()
}

/// A stored record in which one list, or two, tell another length.
fn wrong_length(rng: &mut Rng, table: &[u8], mut bytes: Vec<u8>) -> Vec<u8> {
    let places = lengths(table, &bytes);
    if places.is_empty() {
        return bytes;
    }
    for _ in 0..rng.pick(&[1, 1, 1, 2]) {
        let at = rng.pick(&places);
        let told = u16::from_le_bytes([bytes[at], bytes[at + 1]]);
        let other = match rng.below(6) {
            0 => told.swap_bytes(),
            1 => told.wrapping_add(2),
            _ => told.wrapping_add(rng.pick(&[1, u16::MAX, 256, 65_280])),
        };
        bytes[at..at + 2].copy_from_slice(&other.to_le_bytes());
    }
    bytes
}

/// Where the lists of a stored record tell their lengths.
fn lengths(table: &[u8], bytes: &[u8]) -> Vec<usize> {
    let (mut at, mut places) = (0, Vec::new());
    while let Some(&symbol) = bytes.get(at) {
        let list = table[usize::from(symbol)] == LIST;
        places.extend(list.then_some(at + 2));
        at += if list { 4 } else { 1 };
    }
    places
}
