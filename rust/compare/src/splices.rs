//! The random cases of the converter.

use crate::case::{Call, Case, Kind};
use crate::cases::{with_another_run, with_room};
use crate::make::Maker;
use crate::rng::Rng;
use crate::told::Told;
use interface::{Library, LIST};

pub fn record_case(rng: &mut Rng, table: Vec<u8>, library: &dyn Library) -> Case {
    let told = Told::new(rng, table, [Call::SpliceRecord, Call::SpliceRecordIn], false);
    let counted = if rng.chance(15) { counted(rng, &told) } else { None };
    let (record, kind) = counted.unwrap_or_else(|| (Maker::new(rng, told.table()).record(), None));
    spliced(rng, told, library, record, kind)
}

pub fn pattern_case(rng: &mut Rng, table: Vec<u8>, library: &dyn Library) -> Case {
    let told = Told::new(rng, table, [Call::SplicePattern, Call::SplicePatternIn], false);
    let mut maker = Maker::new(rng, told.table());
    let record = maker.record();
    let mut pattern = maker.pattern(&record);
    if rng.chance(3) {
        pattern = with_another_run(rng, pattern);
    }
    spliced(rng, told, library, pattern, None)
}

/// The case of these bytes, whose output has a room around what is written.
fn spliced(
    rng: &mut Rng,
    told: Told,
    library: &dyn Library,
    bytes: Vec<u8>,
    kind: Option<Kind>,
) -> Case {
    let mut bytes = told.classes.exchanged(rng, bytes);
    if rng.chance(10) {
        bytes = told.with_inner_list(rng, bytes, &[]);
    }
    let lists = told.lists(&[&bytes]);
    let mut kinds = Vec::from_iter(kind);
    kinds.extend((lists.by_class && !lists.by_symbol).then_some(Kind::ByClass));
    kinds.extend(lists.empty.then_some(Kind::EmptyInnerList));
    let case = told.case(rng, vec![bytes], kinds);
    with_room(rng, case, library)
}

/// A record of lists in a list that has 254 to 256 elements when it is spliced, where the table has
/// a list and a leaf.
fn counted(rng: &mut Rng, told: &Told) -> Option<(Vec<u8>, Option<Kind>)> {
    let symbol = |children| told.table().iter().position(|&c| c == children);
    let (list, leaf) = (symbol(LIST)? as u8, symbol(0)? as u8);
    let elements = rng.between(254, 256);
    let kind = match elements {
        255 => Some(Kind::MostElements),
        256 => Some(Kind::OneElementOver),
        _ => None,
    };
    let (mut left, mut children, mut bytes) = (elements, 0, Vec::new());
    while left > 0 {
        let number = rng.below(left.min(100) + 1);
        let inner = [vec![list, number as u8], vec![leaf; number]].concat();
        let (taken, child) = match rng.below(3) {
            0 => (number, [vec![list, 1], inner].concat()),
            1 => (number, inner),
            _ => (1, vec![leaf]),
        };
        bytes.extend(child);
        left -= taken;
        children += 1;
    }
    Some(([vec![list, children], bytes].concat(), kind))
}
