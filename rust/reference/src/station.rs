//! The station: its current record and eight kept ones, in buffers that are lent.

use crate::{
    fault::Fault,
    grammar::{self, Grammar},
    record::Record,
    Produced, Refusal,
};
use interface::{Labels, Language, Word, Written, KEPT_LIMIT, RECORD_LIMIT, STATION_ROOM};

/// Makes a new station: numbers 9 of the edition, 12, the language's, the record's, or done.
pub fn new(
    language: Language,
    record: &[u8],
    station: &mut Labels,
    records: &mut [u8],
) -> Result<(), Refusal> {
    grammar::check_edition(language.edition)?;
    check_room(records)?;
    Record::check(Grammar::read(language)?, record)?;
    station.kept = 0;
    put(record, station, records);
    Ok(())
}

/// Keeps the current record under a name: numbers 12, 9, 21, or done.
pub fn keep(name: u16, station: &mut Labels, records: &mut [u8]) -> Result<(), Refusal> {
    check(station, records)?;
    let kept = usize::from(station.kept);
    let place = place_of(name, station).unwrap_or(kept);
    if place == KEPT_LIMIT {
        return Err(Fault::new(Word::Shelf, 0).into());
    }
    if place == kept {
        station.names[place] = name;
        station.kept += 1;
    }
    station.lengths[place + 1] = station.lengths[0];
    let (current, others) = records.split_at_mut(RECORD_LIMIT);
    let length = usize::from(station.lengths[0]);
    others[place * RECORD_LIMIT..][..length].copy_from_slice(&current[..length]);
    Ok(())
}

/// Makes the record that is kept under a name current: numbers 12, 9, 20, or done.
pub fn return_to(name: u16, station: &mut Labels, records: &mut [u8]) -> Result<(), Refusal> {
    check(station, records)?;
    let place = place_of(name, station).ok_or(Fault::new(Word::NoName, 0))?;
    let record = record(place + 1, station, records).to_vec();
    put(&record, station, records);
    Ok(())
}

/// Makes what a replacement gives for the current record current: numbers 9 of the edition, 12, 9, the
/// replacement's, or what it shows.
pub(crate) fn apply(
    language: Language,
    station: &mut Labels,
    records: &mut [u8],
    replaced: impl FnOnce(&[u8]) -> Result<Produced, Refusal>,
) -> Result<Written, Refusal> {
    grammar::check_edition(language.edition)?;
    check(station, records)?;
    let produced = replaced(record(0, station, records))?;
    if !produced.bytes.is_empty() {
        put(&produced.bytes, station, records);
    }
    Ok(produced.look())
}

/// Checks the bytes lent, then what is in use of the station: numbers 12, 9, or accepted.
fn check(station: &Labels, records: &[u8]) -> Result<(), Fault> {
    check_room(records)?;
    let kept = usize::from(station.kept);
    let names = station.names.get(..kept).unwrap_or_default();
    let lengths = station.lengths.get(..=kept).unwrap_or_default();
    let twice = names.iter().enumerate().any(|(i, name)| names[..i].contains(name));
    let fit = lengths.iter().all(|&length| (1..=RECORD_LIMIT).contains(&length.into()));
    match kept <= KEPT_LIMIT && fit && !twice {
        true => Ok(()),
        false => Err(Fault::new(Word::Directory, 0)),
    }
}

fn check_room(records: &[u8]) -> Result<(), Fault> {
    match records.len() < STATION_ROOM {
        true => Err(Fault::new(Word::Full, 0)),
        false => Ok(()),
    }
}

/// Where a name stands among those in use.
fn place_of(name: u16, station: &Labels) -> Option<usize> {
    station.names[..station.kept.into()].iter().position(|&kept| kept == name)
}

/// The record at a place; the current one is at 0.
fn record<'a>(place: usize, station: &Labels, records: &'a [u8]) -> &'a [u8] {
    &records[place * RECORD_LIMIT..][..station.lengths[place].into()]
}

/// Makes a record current.
fn put(record: &[u8], station: &mut Labels, records: &mut [u8]) {
    station.lengths[0] = record.len() as u16;
    records[..record.len()].copy_from_slice(record);
}
