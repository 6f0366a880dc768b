//! The workloads of the station; n is the length of the current record, in bytes.

use crate::workloads::{full, symbols, Workload};
use interface::{Labels, Language, Library, RECORD_LIMIT, STATION_ROOM};
use std::cell::RefCell;

pub fn all() -> Vec<Workload> {
    let bytes = [64, 1_024, RECORD_LIMIT];
    let mut all = Vec::new();
    all.extend(bytes.map(|n| new("a new station", n)));
    all.extend(bytes.map(|n| Held::of(full(n)).keep("station: keep, eight kept")));
    all.extend(bytes.map(|n| Held::of(full(n)).return_to("station: return, eight kept")));
    all.extend([10, 40, 120].map(|n| turn(n).apply("station: apply, a row turned by one")));
    all
}

/// The name of the last record that is kept.
const LAST: u16 = 7;

/// A station that keeps eight records, the last of which is the current one.
struct Held {
    n: usize,
    labels: Labels,
    records: Vec<u8>,
}

impl Held {
    fn of(record: Vec<u8>) -> Self {
        let n = record.len();
        let mut labels = Labels { kept: 8, lengths: [RECORD_LIMIT as u16; 9], ..Labels::default() };
        labels.names.iter_mut().zip(0..).for_each(|(name, i)| *name = i);
        (labels.lengths[0], labels.lengths[8]) = (n as u16, n as u16);
        let mut records = vec![0; STATION_ROOM];
        for place in [0, 8] {
            records[place * RECORD_LIMIT..][..n].copy_from_slice(&record);
        }
        Held { n, labels, records }
    }

    fn keep(self, name: &'static str) -> Workload {
        self.changed(name, "qonveshir_station_keep", |library, labels, records| {
            assert_eq!(library.station_keep(LAST, labels, records).number, 0);
        })
    }

    fn return_to(self, name: &'static str) -> Workload {
        self.changed(name, "qonveshir_station_return", |library, labels, records| {
            assert_eq!(library.station_return(LAST, labels, records).number, 0);
        })
    }

    /// Sends the first element to the end, so that the record stays as long.
    fn apply(self, name: &'static str) -> Workload {
        let symbols = symbols();
        let parts = symbols.parsed_move("gates(?0, @0) => gates(@0, ?0)");
        let parts = parts.expect("the move is right");
        let (rule, template) = (parts.rule.bytes, parts.template.bytes);
        let table = symbols.table().to_vec();
        self.changed(name, "qonveshir_station_apply", move |library, labels, records| {
            let language = Language::simple(&table);
            let written =
                library.station_apply(language, &rule, &template, u32::MAX, labels, records);
            assert_eq!(written.number, 0);
        })
    }

    fn changed(
        self,
        name: &'static str,
        call: &'static str,
        change: impl Fn(&dyn Library, &mut Labels, &mut [u8]) + 'static,
    ) -> Workload {
        let Held { n, labels, records } = self;
        let lent = RefCell::new((labels, records));
        let run = Box::new(move |library: &dyn Library| {
            let (labels, records) = &mut *lent.borrow_mut();
            change(library, labels, records);
        });
        Workload { name, n, call, unit: "call", units: 1, run }
    }
}

/// A station whose current record is a list of n elements.
fn turn(n: usize) -> Held {
    let row = format!("gates({}held)", "open, ".repeat(n - 1));
    let row = symbols().term(&row).expect("the record is right");
    Held { n, ..Held::of(row) }
}

/// A new station with a record of n bytes.
fn new(name: &'static str, n: usize) -> Workload {
    let (table, record) = (symbols().table().to_vec(), full(n));
    let lent = RefCell::new((Labels::default(), vec![0; STATION_ROOM]));
    let run = Box::new(move |library: &dyn Library| {
        let (labels, records) = &mut *lent.borrow_mut();
        let outcome = library.station_new(Language::simple(&table), &record, labels, records);
        assert_eq!(outcome.number, 0);
    });
    Workload { name, n, call: "qonveshir_station_new", unit: "call", units: 1, run }
}
