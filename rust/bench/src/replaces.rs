//! The workloads of replacement.

use crate::workloads::{symbols, Workload};
use interface::{Edition, Language, Library, ANSWER, RECORD_LIMIT};
use std::cell::RefCell;

pub fn all() -> Vec<Workload> {
    let mut all = Vec::new();
    all.extend([10, 40, 120].map(|n| ten_nodes(n).matched("match of the move of ten nodes")));
    all.extend([10, 40, 120].map(|n| ten_nodes(n).look("look, a template of ten nodes")));
    all.extend([10, 40, 120].map(|n| ten_nodes(n).apply("apply, a template of ten nodes")));
    all.extend([20, 100, 200].map(|n| run_twice(n).look("look, a run put in twice")));
    all.extend([20, 100, 200].map(|n| run_twice(n).apply("apply, a run put in twice")));
    all.extend([10, 40, 200].map(|n| deep_part(n).look("look, a part nested 30 deep")));
    all.extend([10, 40, 200].map(|n| deep_part(n).apply("apply, a part nested 30 deep")));
    all.extend([20, 100, 200].map(|n| deep_template(n).look("look, a template nested 30 deep")));
    all.extend([20, 100, 200].map(|n| deep_template(n).apply("apply, a template nested 30 deep")));
    all.extend([20, 60, 120].map(|n| spliced(n).apply("edition 2: apply, two lists spliced in")));
    all
}

/// A rule, a template and a record, in an edition.
struct Move {
    n: usize,
    edition: Edition,
    table: Vec<u8>,
    rule: Vec<u8>,
    template: Vec<u8>,
    record: Vec<u8>,
}

/// A list of n elements, the last of which the rule finds, and a template of ten nodes.
fn ten_nodes(n: usize) -> Move {
    let text = "row(?0, gates(@0, held, @1)) => row(gates(@1, ?0, @0, gate(?0)), gate(gate(?0)))";
    let record = format!("row(gate(shut), gates({}held))", "open, ".repeat(n - 1));
    Move::of(Edition::ONE, n, text, &record)
}

/// A run of n elements, put into two lists.
fn run_twice(n: usize) -> Move {
    let record = format!("gates({})", vec!["open"; n].join(", "));
    Move::of(Edition::ONE, n, "gates(@0) => row(gates(@0), gates(@0))", &record)
}

/// A part that nests 30 deep: 14 lists of n elements in a list, which stands below 27 symbols.
fn deep_part(n: usize) -> Move {
    let list = format!("gates({})", vec!["open"; n].join(", "));
    let record = nested(&format!("gates({})", vec![list; 14].join(", ")), 27);
    Move::of(Edition::ONE, n, "?0 => row(?0, open)", &record)
}

/// A name put n times into a list, which stands below 28 symbols.
fn deep_template(n: usize) -> Move {
    let list = format!("gates({})", vec!["?0"; n].join(", "));
    Move::of(Edition::ONE, n, &format!("?0 => {}", nested(&list, 28)), "open")
}

/// A term below so many symbols.
fn nested(term: &str, deep: usize) -> String {
    format!("{}{term}{}", "gate(".repeat(deep), ")".repeat(deep))
}

/// Two lists of n elements, whose elements come into one.
fn spliced(n: usize) -> Move {
    let list = format!("gates({})", vec!["open"; n].join(", "));
    Move::of(Edition::TWO, n, "row(?0, ?1) => gates(?0, ?1)", &format!("row({list}, {list})"))
}

impl Move {
    fn of(edition: Edition, n: usize, text: &str, record: &str) -> Self {
        let symbols = symbols();
        let parts = symbols.parsed_move(text).expect("the move is right");
        let (rule, template) = (parts.rule.bytes, parts.template.bytes);
        let record = symbols.term(record).expect("the record is right");
        Move { n, edition, table: symbols.table().to_vec(), rule, template, record }
    }

    fn language(&self) -> Language<'_> {
        Language::simple(&self.table).in_edition(self.edition)
    }

    /// The match alone.
    fn matched(self, name: &'static str) -> Workload {
        let (n, answer) = (self.n, RefCell::new([0; ANSWER]));
        let run = Box::new(move |library: &dyn Library| {
            let answer = &mut *answer.borrow_mut();
            let Move { rule, record, .. } = &self;
            let outcome = library.match_one(self.language(), rule, record, u32::MAX, answer);
            assert_eq!(outcome.number, 0);
        });
        Workload { name, n, call: "qonveshir_match", unit: "call", units: 1, run }
    }

    fn look(self, name: &'static str) -> Workload {
        let n = self.n;
        let run = Box::new(move |library: &dyn Library| {
            let Move { rule, template, record, .. } = &self;
            let written = library.look(self.language(), rule, template, record, u32::MAX);
            assert_eq!(written.number, 0);
        });
        Workload { name, n, call: "qonveshir_look", unit: "call", units: 1, run }
    }

    fn apply(self, name: &'static str) -> Workload {
        let (n, output) = (self.n, RefCell::new(vec![0; RECORD_LIMIT]));
        let one = self.edition == Edition::ONE;
        let call = if one { "qonveshir_apply" } else { "qonveshir_apply_in" };
        let run = Box::new(move |library: &dyn Library| {
            let Move { rule, template, record, .. } = &self;
            let output = &mut *output.borrow_mut();
            let written = library.apply(self.language(), rule, template, record, u32::MAX, output);
            assert_eq!(written.number, 0);
        });
        Workload { name, n, call, unit: "call", units: 1, run }
    }
}
