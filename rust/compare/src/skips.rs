//! Lists in which a row of lengths of a run name cannot hold, with an allowance that ends before,
//! with or after that row.

use crate::case::{Call, Case, Kind};
use crate::cases::room;
use crate::classes::{list_of, Classes};
use crate::make::Maker;
use crate::rng::Rng;
use interface::{sheet_of, Edition, COMPLEMENT, FIRST_NAME, FIRST_RUN, LIST};

/// What decides that a length cannot hold.
#[derive(Clone, Copy, PartialEq, Eq)]
enum Decides {
    /// A symbol after the run name.
    Symbol,
    /// An assigned name after it.
    Name,
    /// An assigned run name after it.
    Run,
    /// That nothing comes after it.
    Last,
}

impl Decides {
    fn kind(self) -> Kind {
        match self {
            Decides::Symbol => Kind::BeforeASymbol,
            Decides::Name => Kind::BeforeAName,
            Decides::Run => Kind::BeforeARun,
            Decides::Last => Kind::BeforeNothing,
        }
    }

    /// What such a length counts.
    fn each(self) -> u32 {
        if self == Decides::Last {
            1
        } else {
            2
        }
    }
}

/// The elements that such lists are made of, and how many lengths cannot hold.
struct Elements {
    list: u8,
    /// A term, and terms that start otherwise.
    one: Vec<u8>,
    others: Vec<Vec<u8>>,
    skipped: usize,
}

/// A search that comes to lengths that cannot hold after so many counts.
struct Skip {
    pattern: Vec<u8>,
    record: Vec<u8>,
    before: u32,
    /// The lengths of the answer after which it does so, if it is not from the start.
    given: Vec<u16>,
}

/// A case of a call, if the table has a list and terms that start in two ways.
pub fn skip_case(rng: &mut Rng, table: Vec<u8>) -> Option<Case> {
    use Call::*;
    let call = rng.pick(&[Match, MatchIn, Next, NextIn, Rules, RulesIn]);
    let brought = matches!(call, MatchIn | NextIn | RulesIn);
    let classes = if brought { Classes::new(rng, table) } else { Classes::own(table) };
    let elements = elements(rng, &classes)?;
    let after_an_answer = matches!(call, Next | NextIn);
    let all = [Decides::Symbol, Decides::Name, Decides::Run, Decides::Last];
    // After an answer a last run name has no length left.
    let decides = rng.pick(if after_an_answer { &all[..3] } else { &all });
    let skip = match after_an_answer {
        false => elements.at_the_start(rng, decides),
        true => elements.after_an_answer(rng, &classes, decides),
    };
    let (number, kind) = allowance(rng, &elements, &skip, decides.each());
    let record = classes.exchanged(rng, skip.record);
    let rule = match call {
        Rules | RulesIn => sheet_of(Edition::ONE, &vec![skip.pattern; rng.between(1, 3)]),
        _ => skip.pattern,
    };
    let Classes { table, list } = classes;
    let inputs = if brought { vec![table, list, rule, record] } else { vec![table, rule, record] };
    let kinds = vec![kind, decides.kind()];
    let case = Case::new(call, inputs);
    Some(Case { lengths: skip.given, number, kinds, room: room(rng), ..case })
}

/// An allowance, and the kind that a case has by it.
fn allowance(rng: &mut Rng, elements: &Elements, skip: &Skip, each: u32) -> (u32, Kind) {
    let end = skip.before + each * elements.skipped as u32;
    let within = skip.before.min(end - 1);
    let (allowance, place) = match rng.below(3) {
        0 => (rng.between(within as usize, end as usize - 1) as u32, 0),
        1 => (end, 1),
        _ => (end + rng.pick(&[1, 1, 2, 5, 40, 20_000]), 2),
    };
    let kinds = match elements.skipped {
        0 => [Kind::NoneUnder, Kind::NoneAt, Kind::NoneOver],
        1 => [Kind::OneUnder, Kind::OneAt, Kind::OneOver],
        _ => [Kind::ManyUnder, Kind::ManyAt, Kind::ManyOver],
    };
    (allowance, kinds[place])
}

/// Elements over a table, where it has such.
fn elements(rng: &mut Rng, classes: &Classes) -> Option<Elements> {
    let list = classes.table.iter().position(|&children| children == LIST)? as u8;
    let skipped = match rng.below(3) {
        0 => 0,
        1 => 1,
        _ => rng.between(2, 70),
    };
    let mut maker = Maker::new(rng, &classes.table);
    let mut term = || {
        let budget = maker.rng.pick(&[1, 1, 1, 5]);
        maker.term(budget)
    };
    let one = term();
    let unlike = |other: &Vec<u8>| !classes.same(one[0].into(), other[0].into());
    let others: Vec<_> = (0..6).map(|_| term()).filter(unlike).take(3).collect();
    (!others.is_empty()).then_some(Elements { list, one, others, skipped })
}

impl Elements {
    /// So many elements that start otherwise.
    fn others(&self, rng: &mut Rng, number: usize) -> Vec<Vec<u8>> {
        (0..number).map(|_| self.others[rng.below(self.others.len())].clone()).collect()
    }

    /// Elements at which as many lengths cannot hold, then no more, or one that can and others.
    fn tail(&self, rng: &mut Rng) -> Vec<Vec<u8>> {
        let mut tail = self.others(rng, self.skipped);
        if rng.chance(70) {
            tail.push(self.one.clone());
            for _ in 0..rng.below(4) {
                let number = rng.below(4);
                tail.extend(self.others(rng, number));
                tail.push(self.one.clone());
            }
        }
        tail
    }

    fn pattern(&self, decides: Decides) -> Vec<u8> {
        let (name, run, list) = (FIRST_NAME, FIRST_RUN, self.list);
        match decides {
            Decides::Symbol => [&[list, 3, run], &self.one[..], &[run + 1]].concat(),
            Decides::Name => vec![list, 4, name, run, name, run + 1],
            Decides::Run => vec![list, 2, list, 1, run, list, 3, run + 1, run, run + 2],
            Decides::Last => vec![list, 2, name, run],
        }
    }

    /// A record for the pattern: so many terms for the name or run name that is assigned first, if
    /// there is one, and the elements that are searched.
    fn record(&self, decides: Decides, terms: usize, elements: Vec<Vec<u8>>) -> Vec<u8> {
        let assigned = vec![self.one.clone(); terms];
        match decides {
            Decides::Symbol => list_of(self.list, &elements),
            Decides::Name | Decides::Last => list_of(self.list, &[assigned, elements].concat()),
            Decides::Run => {
                let rows = [assigned, elements].map(|row| list_of(self.list, &row));
                list_of(self.list, &rows)
            }
        }
    }

    /// A search that comes to such lengths at its start.
    fn at_the_start(&self, rng: &mut Rng, decides: Decides) -> Skip {
        let terms = if decides == Decides::Run { rng.between(1, 3) } else { 1 };
        let elements = match decides {
            Decides::Last => self.others(rng, self.skipped),
            _ => self.tail(rng),
        };
        let before = match decides {
            Decides::Symbol => 1,
            Decides::Name | Decides::Last => 2,
            // Three lists, and the lengths of the run name that is assigned first.
            Decides::Run => 3 + terms as u32 + 1,
        };
        let complements = u8::from(rng.chance(20));
        Skip {
            pattern: [vec![COMPLEMENT; complements.into()], self.pattern(decides)].concat(),
            record: self.record(decides, terms, elements),
            before: before + u32::from(complements),
            given: Vec::new(),
        }
    }

    /// A search that comes to such lengths after an answer, whose check counts each node of the
    /// pattern once.
    fn after_an_answer(&self, rng: &mut Rng, classes: &Classes, decides: Decides) -> Skip {
        let (first, tail) = (rng.below(3), self.tail(rng));
        let lengths = [first as u16, tail.len() as u16];
        let elements = [self.others(rng, first), vec![self.one.clone()], tail].concat();
        let pattern = self.pattern(decides);
        let assigned: &[u16] = if decides == Decides::Run { &[1] } else { &[] };
        Skip {
            before: classes.nodes(&pattern),
            pattern,
            record: self.record(decides, 1, elements),
            given: [assigned, &lengths].concat(),
        }
    }
}
