//! The random cases of the station: each call alone and after a list of others, on stations that are
//! sound or damaged.

use crate::case::{Call, Case, Change, Kind, Lent};
use crate::make::Maker;
use crate::replaces::replaced;
use crate::rng::Rng;
use crate::told::Told;
use interface::{Labels, Library, KEPT_LIMIT, RECORD_LIMIT, STATION_ROOM};

pub fn new_case(rng: &mut Rng, table: Vec<u8>, library: &dyn Library) -> Case {
    let told = Told::new(rng, table, [Call::StationNew, Call::StationNewIn], false);
    let record = Maker::new(rng, told.table()).record();
    let mut records = told.mended_entries(rng, library, vec![record]);
    let mut kinds = Vec::from_iter(told.perhaps_last(rng, &mut records));
    let record = records.pop().expect("a record was made");
    let record = told.classes.exchanged(rng, record);
    kinds.extend(told.kinds(&[&record]));
    kinds.extend((record.len() == RECORD_LIMIT).then_some(Kind::LengthOf4096));
    let mut station = held(rng, vec![0]);
    damage(rng, &mut station, 50);
    let case = told.case(rng, vec![record], kinds);
    with_room(rng, Case { station, ..case })
}

pub fn keep_case(rng: &mut Rng, _: Vec<u8>, _: &dyn Library) -> Case {
    change_case(rng, Call::StationKeep)
}

pub fn return_case(rng: &mut Rng, _: Vec<u8>, _: &dyn Library) -> Case {
    change_case(rng, Call::StationReturn)
}

/// A call that takes no table; the current record is any bytes.
fn change_case(rng: &mut Rng, call: Call) -> Case {
    let length = length(rng);
    let current = (0..length).map(|_| rng.byte()).collect();
    let station = held(rng, current);
    on_station(rng, Case { station, ..Case::new(call, Vec::new()) }, 2)
}

pub fn apply_case(rng: &mut Rng, table: Vec<u8>, library: &dyn Library) -> Case {
    let mut case = replaced(rng, table, library, [Call::StationApply, Call::StationApplyIn]);
    let record = case.inputs.pop().expect("a replacement has a record");
    case.station = held(rng, record);
    on_station(rng, case, 3)
}

/// The case with a name, a list of calls before it, of the first so many kinds, and perhaps damage.
fn on_station(rng: &mut Rng, mut case: Case, changes: usize) -> Case {
    if rng.chance(50) {
        let number = rng.between(1, 9);
        case.station.before = (0..number).map(|_| change(rng, changes, &case.station)).collect();
        case.kinds.push(Kind::ManyCalls);
    }
    case.station.name = name(rng, &case.station.labels);
    let labels = case.station.labels;
    let kept = &labels.names[..labels.kept.into()];
    case.kinds.extend((kept.len() == KEPT_LIMIT).then_some(Kind::FullShelf));
    case.kinds.extend(kept.contains(&case.station.name).then_some(Kind::InPlace));
    let longest = usize::from(labels.lengths[0]) == RECORD_LIMIT;
    case.kinds.extend(longest.then_some(Kind::LengthOf4096));
    let damage = damage(rng, &mut case.station, 25);
    case.kinds.extend(damage);
    with_room(rng, case)
}

fn change(rng: &mut Rng, changes: usize, station: &Lent) -> Change {
    let name = name(rng, &station.labels);
    match rng.below(changes) {
        0 => Change::Keep(name),
        1 => Change::Return(name),
        _ => Change::Apply,
    }
}

/// A name, mostly one that is kept.
fn name(rng: &mut Rng, labels: &Labels) -> u16 {
    let kept = &labels.names[..labels.kept.into()];
    match rng.below(3) {
        0 => rng.below(12) as u16,
        1 => rng.pick(&[0, 255, 256, u16::MAX]),
        _ if kept.is_empty() => 3,
        _ => rng.pick(kept),
    }
}

/// A station with this record as current and some kept ones, of any bytes.
fn held(rng: &mut Rng, current: Vec<u8>) -> Lent {
    let kept = if rng.chance(40) { KEPT_LIMIT } else { rng.below(KEPT_LIMIT + 1) };
    let mut labels = Labels { kept: kept as u16, ..Labels::default() };
    let mut pool: Vec<u16> = (0..12).chain([255, 256, u16::MAX]).collect();
    labels.names = labels.names.map(|_| pool.swap_remove(rng.below(pool.len())));
    labels.lengths = labels.lengths.map(|_| length(rng) as u16);
    labels.lengths[0] = current.len() as u16;
    let records = vec![(0, current[..current.len().min(RECORD_LIMIT)].to_vec())];
    Lent { labels, records, ..Lent::default() }
}

/// The length of a record.
fn length(rng: &mut Rng) -> usize {
    match rng.below(8) {
        0 => RECORD_LIMIT,
        1 => rng.between(1, RECORD_LIMIT),
        _ => rng.between(1, 40),
    }
}

/// Damages a station now and then: what is in use of it, or what is not.
fn damage(rng: &mut Rng, station: &mut Lent, percent: usize) -> Option<Kind> {
    if !rng.chance(percent) {
        return None;
    }
    let Lent { labels, .. } = station;
    let kept = usize::from(labels.kept);
    let used = rng.below(kept + 1);
    Some(match rng.below(6) {
        0 => {
            labels.kept = rng.pick(&[9, 9, 10, 255, 256, 264, u16::MAX]);
            Kind::NineKept
        }
        1 => {
            labels.lengths[used] = 0;
            Kind::LengthOf0
        }
        2 => {
            labels.lengths[used] = rng.pick(&[4_097, 4_097, 8_192, u16::MAX]);
            Kind::LengthOf4097
        }
        3 if kept > 1 => {
            let first = rng.below(kept - 1);
            labels.names[rng.between(first + 1, kept - 1)] = labels.names[first];
            Kind::NameTwice
        }
        _ if kept < KEPT_LIMIT => {
            let name = labels.names[0];
            labels.names[kept..].fill(name);
            labels.lengths[kept + 1..].fill(rng.pick(&[0, 4_097, u16::MAX]));
            Kind::UnusedDamage
        }
        _ => return None,
    })
}

/// The case with bytes for the records: mostly just enough, now and then one byte less.
fn with_room(rng: &mut Rng, mut case: Case) -> Case {
    let damaged = case.kinds.iter().any(|kind| {
        use Kind::*;
        matches!(kind, NineKept | LengthOf0 | LengthOf4097 | NameTwice)
    });
    case.room = match rng.below(20) {
        0 => STATION_ROOM - 1,
        1 => rng.pick(&[0, 1, RECORD_LIMIT, 32_768]),
        2 => STATION_ROOM + rng.below(RECORD_LIMIT),
        _ => STATION_ROOM,
    };
    case.kinds.extend((case.room == STATION_ROOM - 1).then_some(Kind::Room36863));
    case.kinds.extend((case.room < STATION_ROOM && damaged).then_some(Kind::RoomAndDamage));
    case
}
