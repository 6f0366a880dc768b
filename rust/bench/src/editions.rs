//! The workloads of edition 2: reading, the converter and the stored form.

use crate::workloads::{full, lists, read_rule, restore_in, store_in, symbols, Workload};
use interface::{sheet_of, Edition, Language, Library, ANSWER, LIST, RECORD_LIMIT};
use std::cell::RefCell;

pub fn all() -> Vec<Workload> {
    let bytes = [256, 1_024, 4_096];
    let nested = |n| in_turn(lists(n, true));
    let store = |name, record| store_in(Edition::TWO, table(), name, record);
    let restore = |name, record| restore_in(Edition::TWO, table(), name, record);
    let mut all = Vec::new();
    all.extend(bytes.map(|n| read("edition 2: long record, one name", in_turn(full(n)))));
    all.extend(bytes.map(|n| read("edition 2: nesting 32, one name", nested(n))));
    all.extend([1, 4, 16, 64].map(read_rules));
    all.extend(bytes.map(|n| store("edition 2: store, lists within a list", in_turn(full(n)))));
    all.extend(bytes.map(|n| store("edition 2: store, nesting 32", nested(n))));
    all.extend(bytes.map(|n| restore("edition 2: restore, nesting 32", nested(n))));
    all.extend(bytes.map(|n| splice("splice, lists of lists", groups(n))));
    all.extend(bytes.map(|n| splice("splice, nothing to splice", nested(n))));
    all
}

/// The table with a second list symbol, which comes last.
fn table() -> Vec<u8> {
    [symbols().table(), &[LIST]].concat()
}

/// Its two list symbols.
fn list_symbols() -> [u8; 2] {
    let table = table();
    let first = table.iter().position(|&children| children == LIST).expect("there is a list");
    [first as u8, table.len() as u8 - 1]
}

fn language(table: &[u8]) -> Language<'_> {
    Language::simple(table).in_edition(Edition::TWO)
}

/// A record with a list directly inside a list of its symbol in the other, so that it is spliced.
fn in_turn(mut record: Vec<u8>) -> Vec<u8> {
    let (table, [one, other]) = (table(), list_symbols());
    let (mut open, mut at) = (vec![(1, None)], 0);
    while at < record.len() {
        while open.last().is_some_and(|&(left, _)| left == 0) {
            open.pop();
        }
        let (left, outer) = open.last_mut().expect("a node within the record");
        *left -= 1;
        let children = table[usize::from(record[at])];
        if children == LIST {
            record[at] = if *outer == Some(one) { other } else { one };
            open.push((record[at + 1], Some(record[at])));
            at += 2;
        } else {
            open.push((children, None));
            at += 1;
        }
    }
    record
}

/// A record of n bytes: lists of eight lists of the same symbol within a list of the other.
fn groups(n: usize) -> Vec<u8> {
    const INNER: usize = 29;
    let [outer, list] = list_symbols();
    let group =
        [vec![list, 8], [vec![list, INNER as u8], vec![0; INNER]].concat().repeat(8)].concat();
    let (number, rest) = ((n - 2) / group.len(), (n - 2) % group.len());
    [vec![outer, (number + rest) as u8], group.repeat(number), vec![0; rest]].concat()
}

/// Reading a record, which a lone name takes whole.
fn read(name: &'static str, record: Vec<u8>) -> Workload {
    let (table, n, answer) = (table(), record.len(), RefCell::new([0; ANSWER]));
    let run = Box::new(move |library: &dyn Library| {
        let answer = &mut *answer.borrow_mut();
        let outcome = library.match_one(language(&table), &[200], &record, 1, answer);
        assert_eq!(outcome.number, 0);
    });
    Workload { name, n, call: "qonveshir_match_in", unit: "byte", units: n as u64, run }
}

fn read_rules(n: usize) -> Workload {
    let (table, sheet) = (table(), sheet_of(Edition::TWO, &vec![read_rule(); n]));
    let units = sheet.len() as u64;
    let run = Box::new(move |library: &dyn Library| {
        let language = language(&table);
        let language = language.with_classes(language.class_list());
        assert_eq!(library.check_rules(language, &sheet).number, 0);
    });
    let (name, call) = ("edition 2: rule sheet reader", "qonveshir_check_rules_in");
    Workload { name, n, call, unit: "byte", units, run }
}

fn splice(name: &'static str, record: Vec<u8>) -> Workload {
    let (table, n) = (table(), record.len());
    let output = RefCell::new(vec![0; RECORD_LIMIT]);
    let run = Box::new(move |library: &dyn Library| {
        let language = Language::simple(&table);
        let outcome = library.splice_record(language, &record, &mut output.borrow_mut());
        assert_eq!(outcome.number, 0);
    });
    Workload { name, n, call: "qonveshir_splice_record", unit: "byte", units: n as u64, run }
}
