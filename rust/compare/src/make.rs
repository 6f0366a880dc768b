//! Random inputs: tables, records, patterns and sheets, valid and damaged.

use crate::rng::Rng;
use interface::*;

/// A table, mostly valid and small.
pub fn table(rng: &mut Rng) -> Vec<u8> {
    let mut table = match rng.below(10) {
        0..=4 => vec![0, 0, 0, 1, 2, LIST],
        5..=8 => {
            let more = rng.below(10);
            [vec![0, LIST], (0..more).map(|_| children(rng)).collect()].concat()
        }
        _ => {
            let length = rng.pick(&[0, 1, 3, 60, 199, 200]);
            (0..length).map(|_| children(rng)).collect()
        }
    };
    if rng.chance(2) {
        match rng.below(2) {
            0 => table.resize(rng.pick(&[201, 201, 202, 255, 256, 300]), 0),
            _ => table.insert(rng.below(table.len() + 1), rng.between(9, 254) as u8),
        }
    }
    table
}

fn children(rng: &mut Rng) -> u8 {
    match rng.below(20) {
        0..=8 => 0,
        9..=11 => 1,
        12..=13 => 2,
        14 => rng.between(3, 8) as u8,
        _ => LIST,
    }
}

/// Writes random terms and patterns over a table.
pub struct Maker<'a> {
    pub rng: &'a mut Rng,
    pub table: &'a [u8],
    bytes: Vec<u8>,
    /// Bytes after which only the smallest terms are written.
    budget: usize,
}

impl<'a> Maker<'a> {
    pub fn new(rng: &'a mut Rng, table: &'a [u8]) -> Self {
        Maker { rng, table, bytes: Vec::new(), budget: 0 }
    }

    /// A record, mostly valid.
    pub fn record(&mut self) -> Vec<u8> {
        let bytes = match self.rng.below(100) {
            0..=2 => self.full(RECORD_LIMIT),
            3..=5 => self.full(RECORD_LIMIT + 1),
            6..=9 => self.deep(false),
            10..=12 => self.term(3_500),
            13..=30 => self.term(120),
            31..=45 => self.row(40),
            _ => self.term(12),
        };
        self.perhaps_damaged(bytes, 8)
    }

    /// A record that its reader accepts, unless the table has no term.
    pub fn term(&mut self, budget: usize) -> Vec<u8> {
        (self.bytes, self.budget) = (Vec::new(), budget);
        self.node(1);
        std::mem::take(&mut self.bytes)
    }

    /// A record of a given length, of lists within a list, where the table allows it.
    pub fn full(&mut self, length: usize) -> Vec<u8> {
        let symbol = |children| self.table.iter().position(|&c| c == children);
        let (Some(list), Some(leaf)) = (symbol(LIST), symbol(0)) else {
            return vec![0; length];
        };
        let (list, leaf) = (list as u8, leaf as u8);
        let (whole, rest) = ((length - 2) / 257, (length - 2) % 257);
        let row = |n: usize| [vec![list, n as u8], vec![leaf; n]].concat();
        let last = match rest {
            0 => vec![],
            1 => vec![leaf],
            _ => row(rest - 2),
        };
        let number = whole + usize::from(rest > 0);
        [vec![list, number as u8], row(255).repeat(whole), last].concat()
    }

    /// A list of small terms, where the table has a list.
    pub fn row(&mut self, most: usize) -> Vec<u8> {
        let Some(list) = self.table.iter().position(|&c| c == LIST) else {
            return self.term(12);
        };
        let number = self.rng.between(4, most);
        let elements: Vec<_> = (0..number).map(|_| self.term(1)).collect();
        [vec![list as u8, number as u8], elements.concat()].concat()
    }

    /// A chain of about 32 nodes, in a pattern with complements between them.
    fn deep(&mut self, pattern: bool) -> Vec<u8> {
        let one = self.table.iter().position(|&c| c == 1);
        let list = self.table.iter().position(|&c| c == LIST);
        let leaf = self.table.iter().position(|&c| c == 0).unwrap_or(0) as u8;
        let most = if pattern { self.rng.pick(&[0, 1, 2, 8]) } else { 0 };
        let mut bytes = Vec::new();
        for _ in 0..self.rng.between(30, 32) {
            bytes.extend(vec![COMPLEMENT; self.rng.between(0, most)]);
            match (self.rng.below(2), one, list) {
                (0, Some(one), _) | (_, Some(one), None) => bytes.push(one as u8),
                (_, _, Some(list)) => bytes.extend([list as u8, 1]),
                _ => {}
            }
        }
        let last = if pattern { self.rng.pick(&[200, 232, 232, 248, 250, leaf]) } else { leaf };
        bytes.push(last);
        bytes
    }

    fn node(&mut self, nesting: usize) {
        let small = nesting >= 6 + self.budget / 200 || self.bytes.len() >= self.budget;
        let symbol = self.symbol(small);
        self.bytes.push(symbol);
        let mut children = self.table.get(usize::from(symbol)).copied().unwrap_or(0);
        if children == LIST {
            let most = if self.budget > 1_000 && self.rng.chance(30) { 255 } else { 7 };
            children = if small { 0 } else { self.rng.between(0, most) as u8 };
            self.bytes.push(children);
        }
        // A table without a leaf has no term: what is written then is damaged.
        for _ in 0..if nesting < 40 { children } else { 0 } {
            if self.bytes.len() < 5_000 {
                self.node(nesting + 1);
            }
        }
    }

    /// A symbol of the table, one without children where the term must be small.
    fn symbol(&mut self, small: bool) -> u8 {
        for _ in 0..40 {
            let code = self.rng.below(self.table.len().max(1));
            let leaf = self.table.get(code) == Some(&0);
            if if small { leaf } else { !leaf || self.rng.chance(60) } {
                return code as u8;
            }
        }
        0
    }

    /// A pattern for a record, mostly valid and often bound.
    pub fn pattern(&mut self, record: &[u8]) -> Vec<u8> {
        let bytes = match self.rng.below(100) {
            0..=1 => self.full(PATTERN_LIMIT),
            2..=3 => self.full(PATTERN_LIMIT + 1),
            4..=8 => self.deep(true),
            9..=20 => self.search(),
            _ => {
                let budget = self.rng.pick(&[8, 20, 60, 200]);
                let complements = self.complements();
                (self.bytes, self.budget) = (complements, budget);
                self.like(record, 0, 1);
                std::mem::take(&mut self.bytes)
            }
        };
        self.perhaps_damaged(bytes, 8)
    }

    /// Complements around a pattern: mostly none, sometimes as many as there is room for.
    fn complements(&mut self) -> Vec<u8> {
        let most = match self.rng.below(20) {
            0 => PATTERN_LIMIT - 1,
            1 => 40,
            _ => 0,
        };
        vec![COMPLEMENT; self.rng.between(most / 2, most)]
    }

    /// A list pattern with many run names, whose search is long.
    pub fn search(&mut self) -> Vec<u8> {
        let Some(list) = self.table.iter().position(|&c| c == LIST) else {
            return vec![200];
        };
        let number = self.rng.between(2, 7);
        let mut bytes = vec![list as u8, number as u8];
        for _ in 0..number {
            match self.rng.below(6) {
                0..=2 => bytes.push(FIRST_RUN + self.rng.below(6) as u8),
                3 => bytes.extend([COMPLEMENT, FIRST_NAME + self.rng.below(2) as u8]),
                4 => bytes.extend(self.term(1)),
                _ => bytes.push(FIRST_NAME + self.rng.below(3) as u8),
            }
        }
        let complement = self.rng.chance(30);
        [vec![COMPLEMENT; complement.into()], bytes].concat()
    }

    /// Writes a pattern like the term at an offset of a record, and gives the term's end.
    fn like(&mut self, record: &[u8], at: usize, nesting: usize) -> usize {
        let (symbol, children, first) = self.shape(record, at);
        let short = self.bytes.len() >= self.budget || nesting > 30;
        match self.rng.below(100) {
            _ if short => self.name(),
            0..=24 => self.name(),
            25..=39 => {
                let more = if self.rng.chance(10) { self.rng.between(1, 40) } else { 0 };
                self.bytes.extend(vec![COMPLEMENT; 1 + more]);
                match self.rng.below(4) {
                    0 => drop(self.like(record, at, nesting)),
                    1 => self.name(),
                    _ => self.elsewhere(record, nesting),
                }
            }
            40..=43 => self.elsewhere(record, nesting),
            _ if first == at + 2 => return self.list_like(record, at, nesting),
            _ => {
                self.bytes.push(symbol);
                return (0..children).fold(first, |at, _| self.like(record, at, nesting + 1));
            }
        }
        self.end(record, at)
    }

    fn list_like(&mut self, record: &[u8], at: usize, nesting: usize) -> usize {
        let (symbol, children, mut at) = self.shape(record, at);
        self.bytes.push(symbol);
        let place = self.bytes.len();
        self.bytes.push(0);
        let (mut number, mut left) = (0, children);
        while left > 0 || self.rng.chance(25) {
            number += 1;
            let runs = if self.bytes.len() >= self.budget { 100 } else { 40 };
            if left == 0 || self.rng.chance(runs) {
                let whole = self.bytes.len() >= self.budget + 8 || self.rng.chance(30);
                let taken = if whole { left } else { self.rng.between(0, left) };
                at = (0..taken).fold(at, |at, _| self.end(record, at));
                left -= taken;
                let high = self.rng.chance(5);
                let run = if high { self.rng.below(RUNS) } else { self.rng.below(3) };
                self.bytes.push(FIRST_RUN + run as u8);
            } else {
                at = self.like(record, at, nesting + 1);
                left -= 1;
            }
        }
        self.bytes[place] = number;
        at
    }

    fn name(&mut self) {
        let high = self.rng.chance(5);
        let name = if high { self.rng.below(NAMES) } else { self.rng.below(3) };
        self.bytes.push(FIRST_NAME + name as u8);
    }

    /// A pattern like some other part of the record.
    fn elsewhere(&mut self, record: &[u8], nesting: usize) {
        let mut at = 0;
        for _ in 0..self.rng.below(5) {
            let (_, children, first) = self.shape(record, at);
            let skipped = self.rng.below(children.max(1));
            if children > 0 {
                at = (0..skipped).fold(first, |at, _| self.end(record, at));
            }
        }
        self.like(record, at, nesting);
    }

    /// Symbol, number of children and first child of the term at an offset; a leaf past the end.
    fn shape(&self, record: &[u8], at: usize) -> (u8, usize, usize) {
        let symbol = record.get(at).copied().unwrap_or(0);
        match self.table.get(usize::from(symbol)).copied() {
            _ if at >= record.len() => (symbol, 0, at + 1),
            Some(LIST) => (symbol, record.get(at + 1).copied().unwrap_or(0).into(), at + 2),
            children => (symbol, children.unwrap_or(0).into(), at + 1),
        }
    }

    fn end(&self, record: &[u8], at: usize) -> usize {
        let (mut at, mut left) = (at, 1);
        while left > 0 && at < record.len() {
            let (_, children, first) = self.shape(record, at);
            (at, left) = (first, left - 1 + children);
        }
        at
    }

    /// The bytes as they are, or damaged in `percent` of a hundred cases.
    pub fn perhaps_damaged(&mut self, bytes: Vec<u8>, percent: usize) -> Vec<u8> {
        if self.rng.chance(percent) {
            damaged(self.rng, bytes)
        } else {
            bytes
        }
    }
}

/// Bytes with one place changed, added or taken away.
pub fn damaged(rng: &mut Rng, mut bytes: Vec<u8>) -> Vec<u8> {
    let at = rng.below(bytes.len() + 1);
    let code = match rng.below(3) {
        0 => rng.byte(),
        1 => rng.between(199, 255) as u8,
        _ => rng.below(8) as u8,
    };
    match rng.below(5) {
        0 => bytes.truncate(at),
        1 => bytes.insert(at, code),
        2 => bytes.push(code),
        3 if at < bytes.len() => drop(bytes.remove(at)),
        _ if at < bytes.len() => bytes[at] = code,
        _ => drop(bytes.pop()),
    }
    bytes
}

/// A sheet damaged in its directory or its size.
pub fn damaged_sheet(rng: &mut Rng, mut sheet: Vec<u8>) -> Vec<u8> {
    let directory = sheet.len().min(40);
    match rng.below(6) {
        0 => sheet.resize(rng.pick(&[SHEET_LIMIT, SHEET_LIMIT + 1, 40_000, 65_540]), 0),
        1 => sheet.truncate(rng.below(sheet.len() + 1)),
        2 => sheet.push(rng.byte()),
        3 if sheet.len() >= 6 => sheet[4..6].fill(0),
        _ if directory > 0 => {
            let at = rng.below(directory);
            sheet[at] = sheet[at].wrapping_add(rng.pick(&[1, 2, 255, 128]));
        }
        _ => {}
    }
    sheet
}
