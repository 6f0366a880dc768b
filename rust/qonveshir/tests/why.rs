//! `why`: what it says, and that its search counts as the library's does.

mod common;

use command_line::trace::{Spent, Trace, Tree, NOTHING};
use command_line::{Console, Look};
use common::{folder, run, SYMBOLS};
use interface::{Edition, Language, Library, Outcome, Word};
use reference::Reference;
use std::fs;

fn why(rule: &str, state: &str) -> (i32, String) {
    run(&std::env::temp_dir(), &["why", SYMBOLS, rule, state])
}

#[test]
fn says_what_fails() {
    let cases = [
        (
            "row(open, ?0)",
            "row(shut, open)",
            "rule: open  (byte 1)\nstate: shut  (byte 1)\n\
          because the rule asks for open, and the state has shut\n",
            2,
        ),
        (
            "row(?0, ?0)",
            "row(open, gate(open))",
            "rule: ?0  (byte 2)\nstate: gate(open)  (byte 2)\n\
          because ?0 = open already, which is another term\nso far ?0 = open\n",
            3,
        ),
        (
            "gates(@0, held, @0)",
            "gates(open, held, shut)",
            "rule: @0  (byte 4)\n\
          state: shut  (byte 4)\nbecause @0 = open already, which does not stand here\n\
          so far @0 = open\n",
            9,
        ),
        (
            "gates(open, !shut)",
            "gates(open)",
            "rule: !shut  (byte 3)\nstate: gates(open)  (byte 0)\n\
          because the list has no element left for it\n",
            2,
        ),
        (
            "gates(open)",
            "gates(open, shut, held)",
            "rule: gates(open)  (byte 0)\n\
          state: shut  (byte 3)\nbecause the list has elements left, from this one on\n",
            2,
        ),
        (
            "row(!?0, ?0)",
            "row(open, open)",
            "rule: !?0  (byte 1)\nstate: open  (byte 1)\n\
          because the complement fails: ?0 holds there, with ?0 = open\nso far ?0 = open\n",
            4,
        ),
        (
            "row(!shut, !gate(?0))",
            "row(open, gate(held))",
            "rule: !gate(?0)  (byte 3)\n\
          state: gate(held)  (byte 2)\n\
          because the complement fails: gate(?0) holds there, with ?0 = held\n",
            6,
        ),
        (
            "!!gate(?0)",
            "open",
            "rule: !!gate(?0)  (byte 0)\nstate: open  (byte 0)\n\
          because the complement fails: !gate(?0) holds there\n\
          since gate(?0) does not; its search came furthest here:\n\
          rule: gate(?0)  (byte 2)\nstate: open  (byte 0)\n\
          because the rule asks for gate, and the state has open\n",
            3,
        ),
    ];
    for (rule, state, text, count) in cases {
        assert_eq!(why(rule, state), (1, format!("none {count}\n{text}")), "{rule} on {state}");
    }
    let bound = "bound 3: nothing fails; see qonveshir match\n";
    assert_eq!(why("row(?0, ?1)", "row(open, shut)"), (0, bound.into()));
}

#[test]
fn marks_both_nodes() {
    let folder = folder("why-marks");
    let call = ["why", "--marks", SYMBOLS, "gates(@0, !open, @1)", "gates(open, open)"];
    let shown = "\
none 11
rule   gates(@0, !open, @1)
                 ^^^^^
state  gates(open, open)
                   ^^^^
because the complement fails: open holds there
so far @0 = open; @1 = nothing
";
    assert_eq!(run(&folder, &call), (1, shown.into()));
    let spent = run(&folder, &["why", "--allowance", "10", call[2], call[3], call[4]]);
    assert_eq!(spent, (1, "spent 10: the allowance ends the search; see --allowance\n".into()));
    fs::remove_dir_all(folder).unwrap();
}

const TABLE: [u8; 7] = [0, 0, 1, 2, 255, 0, 255];
const CLASSES: [u8; 7] = [0, 1, 2, 3, 4, 1, 4];

/// Numbers by a seed, and patterns and records made of them.
struct Draw(u64);

impl Draw {
    fn below(&mut self, limit: u64) -> u8 {
        self.0 =
            self.0.wrapping_mul(6_364_136_223_846_793_005).wrapping_add(1_442_695_040_888_963_407);
        ((self.0 >> 33) % limit) as u8
    }

    /// A pattern or a record, every other one a list of small parts.
    fn whole(&mut self, pattern: bool) -> Vec<u8> {
        let mut bytes = Vec::new();
        if self.below(2) == 0 {
            self.node(&mut bytes, 3, pattern, false);
            return bytes;
        }
        let children = self.below(6);
        bytes.extend([4, children]);
        for _ in 0..children {
            match self.below(3) {
                0 if pattern => bytes.push(232 + self.below(2)),
                _ => self.node(&mut bytes, 1, pattern, true),
            }
        }
        bytes
    }

    fn node(&mut self, bytes: &mut Vec<u8>, depth: u8, pattern: bool, in_list: bool) {
        match self.below(if pattern { 12 } else { 7 }) {
            8..=9 => bytes.push(200 + self.below(2)),
            10 if in_list => bytes.push(232 + self.below(2)),
            11 => {
                bytes.push(248);
                self.node(bytes, depth, pattern, false);
            }
            2 | 3 if depth > 0 => {
                let symbol = 2 + self.below(2);
                bytes.push(symbol);
                (1..symbol).for_each(|_| self.node(bytes, depth - 1, pattern, false));
            }
            4 | 6 | 7 | 10 if depth > 0 => {
                let children = self.below(4);
                bytes.extend([4 + 2 * self.below(2), children]);
                (0..children).for_each(|_| self.node(bytes, depth - 1, pattern, true));
            }
            code => bytes.push([0, 1, 5][usize::from(code % 3)]),
        }
    }
}

#[test]
fn the_trace_counts_as_the_library_does() {
    let (mut draw, mut words) = (Draw(1), [0; 3]);
    let language = Language::simple(&TABLE).with_classes(&CLASSES);
    for case in 0..100_000 {
        let (mut pattern, mut record) = (draw.whole(true), draw.whole(false));
        let allowance = if case % 5 == 0 { draw.below(20).into() } else { 100_000 };
        if pattern.len() > 256 {
            continue;
        }
        let edition = if case % 2 == 0 { Edition::ONE } else { Edition::TWO };
        if edition == Edition::TWO {
            splice(&mut pattern, |bytes, out| Reference.splice_pattern(language, bytes, out));
            splice(&mut record, |bytes, out| Reference.splice_record(language, bytes, out));
        }
        let (outcome, _) =
            Reference.find(language.in_edition(edition), &pattern, &record, allowance);
        let (rule, state) = (Tree::new(&TABLE, &pattern), Tree::new(&TABLE, &record));
        let mut trace = Trace::new((&TABLE, &CLASSES), &rule, &state, allowance);
        let word = match trace.level(0, 0, NOTHING) {
            Ok(Ok(_)) => Word::Bound,
            Ok(Err(_)) => Word::None,
            Err(Spent) => Word::Spent,
        };
        let found = (Some(word), trace.counted(allowance));
        assert_eq!(
            found,
            (outcome.word(), outcome.count),
            "{pattern:?} on {record:?}, {allowance}"
        );
        words[[Word::Bound, Word::None, Word::Spent].iter().position(|w| *w == word).unwrap()] += 1;
    }
    assert!(words.iter().all(|&number| number > 1_000), "{words:?}");
}

/// Splices bytes in place.
fn splice(bytes: &mut Vec<u8>, call: impl Fn(&[u8], &mut [u8]) -> Outcome) {
    let mut output = vec![0; bytes.len()];
    let outcome = call(bytes, &mut output);
    assert_eq!(outcome.number, 0, "{bytes:?}");
    output.truncate(outcome.count as usize);
    *bytes = output;
}

#[test]
fn every_none_is_explained() {
    let names = "open shut gate/1 row/2 gates/* closed=shut doors=gates";
    let symbols = notation::Symbols::parse(names).unwrap();
    assert_eq!((symbols.table(), symbols.classes()), (&TABLE[..], &CLASSES[..]));
    let (mut draw, mut reasons) = (Draw(2), [0; 6]);
    for case in 0..20_000 {
        let (pattern, record) = (draw.whole(true), draw.whole(false));
        let rule = symbols.show_pattern(&pattern).unwrap();
        let state = symbols.show_term(&record).unwrap();
        let (mut out, mut err) = (Vec::new(), Vec::new());
        let look = Look { marks: case % 2 == 0, ..Look::PLAIN };
        let mut console = Console::new(&mut out, &mut err, look);
        let status = command_line::run(&["why", names, &rule, &state], &mut console);
        let text = String::from_utf8(out).unwrap();
        if status == 0 || pattern.len() > 256 {
            continue;
        }
        assert!(text.starts_with("none ") && !text.contains("differs from"), "{rule}: {text}");
        let said = text.split("because ").nth(1).unwrap_or_else(|| panic!("{rule}: {text}"));
        let reason = REASONS.iter().position(|reason| said.contains(reason)).unwrap();
        reasons[reason] += 1;
    }
    assert!(reasons.iter().all(|&number| number > 0), "{reasons:?}");
}

const REASONS: [&str; 6] = [
    "the complement fails: ",
    "the rule asks for ",
    "which is another term",
    "which does not stand here",
    "no element left",
    "elements left, from this one on",
];

#[test]
fn long_rows_of_complements_are_explained() {
    let (status, text) = why(&("!".repeat(255) + "?0"), "open");
    assert_eq!(status, 1);
    assert!(text.starts_with("none 256\n"), "{text}");
    assert!(text.ends_with("because the complement fails: ?0 holds there, with ?0 = open\n"));
    let at_end = "none 7\nrule: @0  (byte 4)\nstate: gates(open, held)  (byte 0)\n\
                  because @0 = open already, which does not stand here\nso far @0 = open\n";
    assert_eq!(why("gates(@0, held, @0)", "gates(open, held)"), (1, at_end.into()));
}
