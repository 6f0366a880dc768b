//! Random class lists, accepted and damaged, and parts that are equal up to class.

use crate::case::Kind;
use crate::make::Maker;
use crate::rng::Rng;
use interface::{COMPLEMENT, FIRST_NAME, FIRST_RUN, LIST, TABLE_LIMIT};

/// A table's symbols and the class of each.
pub struct Classes {
    pub table: Vec<u8>,
    pub list: Vec<u8>,
}

/// Two parts of a record that a pattern compares.
type Twins = [Vec<u8>; 2];

impl Classes {
    /// An accepted class list, if the table is; the table has some of its bytes once more.
    pub fn new(rng: &mut Rng, mut table: Vec<u8>) -> Self {
        for _ in 0..rng.below(8) {
            if !table.is_empty() && table.len() < TABLE_LIMIT {
                table.push(rng.pick(&table));
            }
        }
        let mut classes = Self::own(table);
        let joined = rng.pick(&[0, 40, 80]);
        for symbol in 0..classes.table.len() {
            let like: Vec<usize> = classes.like(symbol).filter(|&other| other < symbol).collect();
            if !like.is_empty() && rng.chance(joined) {
                classes.list[symbol] = rng.pick(&like) as u8;
            }
        }
        classes
    }

    /// The class list in which each symbol is its own class.
    pub fn own(table: Vec<u8>) -> Self {
        Classes { list: (0..table.len()).map(|i| i as u8).collect(), table }
    }

    /// Whether each symbol is its own class, or some share one.
    pub fn kind(&self) -> Kind {
        let own = (0..self.list.len()).all(|symbol| self.is_own(symbol));
        if own {
            Kind::OwnClasses
        } else {
            Kind::SharedClasses
        }
    }

    fn is_own(&self, symbol: usize) -> bool {
        usize::from(self.list[symbol]) == symbol
    }

    /// The classes that have a symbol's byte in the table.
    fn like(&self, symbol: usize) -> impl Iterator<Item = usize> + '_ {
        (0..self.table.len())
            .filter(move |&other| self.table[other] == self.table[symbol] && self.is_own(other))
    }

    /// Whether two bytes are symbols of one class.
    pub fn same(&self, one: usize, other: usize) -> bool {
        one < self.list.len() && self.list.get(one) == self.list.get(other)
    }

    /// The number of nodes of a term.
    pub fn nodes(&self, term: &[u8]) -> u32 {
        let (mut at, mut nodes) = (0, 0);
        while at < term.len() {
            at += self.node(term[at]);
            nodes += 1;
        }
        nodes
    }

    /// The number of bytes of a node with this symbol.
    fn node(&self, symbol: u8) -> usize {
        if self.table.get(usize::from(symbol)) == Some(&LIST) {
            2
        } else {
            1
        }
    }

    /// A pattern or record with some of its symbols exchanged within their classes.
    pub fn exchanged(&self, rng: &mut Rng, mut bytes: Vec<u8>) -> Vec<u8> {
        let mut at = 0;
        while at < bytes.len() {
            let symbol = usize::from(bytes[at]);
            if symbol < self.table.len() && rng.chance(50) {
                let class: Vec<usize> =
                    (0..self.table.len()).filter(|&other| self.same(symbol, other)).collect();
                bytes[at] = rng.pick(&class) as u8;
            }
            at += self.node(symbol as u8);
        }
        bytes
    }

    /// Breaks one of the list's rules, where the table allows it.
    pub fn damage(&mut self, rng: &mut Rng) -> Option<Kind> {
        let last = self.list.len().checked_sub(1)?;
        match rng.below(6) {
            0 => {
                self.list.clear();
                Some(Kind::Empty)
            }
            1 => {
                self.list.pop();
                Some(Kind::OneShort)
            }
            2 => {
                self.list.push(rng.between(0, last + 1) as u8);
                Some(Kind::OneLong)
            }
            _ => {
                let way = rng.below(3);
                let tries = (0..6).map(|_| rng.between(0, last)).collect::<Vec<_>>();
                let wrong = |symbol| Some((symbol, self.wrong_class(rng, way, symbol)?));
                let (symbol, (class, kind)) = tries.into_iter().find_map(wrong)?;
                self.list[symbol] = class as u8;
                Some(kind)
            }
        }
    }

    /// A class that a symbol can't have, in one of three ways, for no other reason where that is
    /// possible.
    fn wrong_class(&self, rng: &mut Rng, way: usize, symbol: usize) -> Option<(usize, Kind)> {
        let like = |other: &usize| self.table[*other] == self.table[symbol];
        match way {
            0 => {
                let any = rng.between(symbol + 1, 255.max(symbol + 1));
                let above = self.like(symbol).find(|&other| other > symbol);
                Some((above.unwrap_or(any), Kind::AboveItsIndex))
            }
            1 => {
                let other = (0..symbol).filter(like).find(|&other| !self.is_own(other))?;
                Some((other, Kind::NotItsOwnClass))
            }
            _ => {
                let other = (0..symbol).find(|other| !like(other) && self.is_own(*other))?;
                Some((other, Kind::UnlikeTableBytes))
            }
        }
    }

    /// A pattern and a record in which it compares two parts: such as are the same up to class, or
    /// such as would be if the number of children were a symbol.
    pub fn twins(&self, rng: &mut Rng) -> Option<(Vec<u8>, Vec<u8>, Kind)> {
        let list = self.table.iter().position(|&children| children == LIST)? as u8;
        let regrouped = self.regrouped(rng, list).filter(|_| rng.chance(40));
        let (by_run, numbers) = (rng.chance(50), regrouped.is_some());
        let twins = regrouped.unwrap_or_else(|| {
            let one = Maker::new(rng, &self.table).term(12);
            let other = self.exchanged(rng, one.clone());
            [one, other]
        });
        if twins[0] == twins[1] {
            return None;
        }
        let (pattern, record) = match by_run {
            false => self.compared_by_name(rng, list, twins),
            true => self.compared_by_run(rng, list, twins),
        };
        let complement = if rng.chance(20) { vec![COMPLEMENT] } else { vec![] };
        let kind = match (numbers, by_run) {
            (false, false) => Kind::SameByName,
            (false, true) => Kind::SameByRun,
            (true, false) => Kind::NumbersByName,
            (true, true) => Kind::NumbersByRun,
        };
        Some((self.exchanged(rng, [complement, pattern].concat()), record, kind))
    }

    fn compared_by_name(&self, rng: &mut Rng, list: u8, twins: Twins) -> (Vec<u8>, Vec<u8>) {
        let (name, run) = (FIRST_NAME, FIRST_RUN);
        match rng.below(3) {
            0 => (vec![list, 2, name, name], list_of(list, &twins)),
            1 => (vec![list, 2, COMPLEMENT, name, name], list_of(list, &twins)),
            _ => {
                let mut maker = Maker::new(rng, &self.table);
                let [one, other] = twins;
                let row = [maker.term(1), one, maker.term(1), other, maker.term(1)];
                (vec![list, 5, run, name, run + 1, name, run + 2], list_of(list, &row))
            }
        }
    }

    fn compared_by_run(&self, rng: &mut Rng, list: u8, twins: Twins) -> (Vec<u8>, Vec<u8>) {
        let run = FIRST_RUN;
        if rng.chance(50) {
            return (vec![list, 2, run, run], list_of(list, &twins));
        }
        let more = Maker::new(rng, &self.table).term(1);
        let rows = twins.map(|twin| list_of(list, &[twin, more.clone()]));
        (vec![list, 2, list, 1, run, list, 1, run], list_of(list, &rows))
    }

    /// Two terms of a list within a list with the same elements, of which the last inner ones of
    /// the one stand after the inner list in the other, so that they differ in numbers of children
    /// alone, which are those of symbols of one class.
    fn regrouped(&self, rng: &mut Rng, list: u8) -> Option<Twins> {
        let all = (1..7).flat_map(|inner| (0..6).map(move |after| (inner, after)));
        let all = all.flat_map(|(inner, after)| {
            (1..=inner).map(move |moved| ([1 + after, inner], [1 + after + moved, inner - moved]))
        });
        let fitting: Vec<_> =
            all.filter(|(one, other)| (0..2).all(|i| self.same(one[i], other[i]))).collect();
        if fitting.is_empty() {
            return None;
        }
        let (one, other) = rng.pick(&fitting);
        let mut maker = Maker::new(rng, &self.table);
        let elements: Vec<_> = (0..one[0] - 1 + one[1]).map(|_| maker.term(1)).collect();
        let term = |[outer, inner]: [usize; 2]| {
            [vec![list, outer as u8, list, inner as u8], elements.concat()].concat()
        };
        Some([term(one), self.exchanged(rng, term(other))])
    }
}

/// A list term of these elements.
pub fn list_of(list: u8, elements: &[Vec<u8>]) -> Vec<u8> {
    [vec![list, elements.len() as u8], elements.concat()].concat()
}
