//! What a case is told: the table, the class list and the edition; and bytes for edition 2, in which
//! no list may stand directly inside a list of its class.

use crate::case::{Call, Case, Kind};
use crate::cases::Pair;
use crate::classes::Classes;
use crate::rng::Rng;
use interface::{Edition, Language, Library, Word, COMPLEMENT, FIRST_NAME, LIST, PATTERN_LIMIT};

/// The forms of a call, simple and `_in`.
pub type Forms = [Call; 2];

/// The language of a case, before its class list is damaged or its edition is one that is not.
pub struct Told {
    pub classes: Classes,
    pub edition: Edition,
    call: Call,
}

impl Told {
    /// A language for one form of a call, whose sheet may tell the edition.
    pub fn new(rng: &mut Rng, table: Vec<u8>, forms: Forms, by_sheet: bool) -> Self {
        let call = forms[usize::from(rng.chance(60))];
        let classes = if call.brings() { Classes::new(rng, table) } else { Classes::own(table) };
        let two = (by_sheet || call.is_told()) && rng.chance(50);
        Told { classes, edition: if two { Edition::TWO } else { Edition::ONE }, call }
    }

    pub fn table(&self) -> &[u8] {
        &self.classes.table
    }

    pub fn brings(&self) -> bool {
        self.call.brings()
    }

    pub fn language(&self) -> Language<'_> {
        let simple = Language::simple(self.table()).in_edition(self.edition);
        match self.brings() {
            false => simple,
            true => simple.with_classes(&self.classes.list),
        }
    }

    /// A case of the call with these inputs after the language; now and then with a damaged class
    /// list or another edition than there is.
    pub fn case(mut self, rng: &mut Rng, inputs: Vec<Vec<u8>>, mut kinds: Vec<Kind>) -> Case {
        let mut edition = self.edition;
        if self.brings() {
            kinds.push(self.classes.kind());
        }
        if self.brings() && rng.chance(12) {
            kinds.extend(self.classes.damage(rng));
        }
        if self.call.is_told() && rng.chance(4) {
            edition = Edition(rng.pick(&[0, 3, 257, 1 << 16, u32::MAX]));
            kinds.push(Kind::AnotherEdition);
        }
        let Classes { table, list } = self.classes;
        let language = if self.call.brings() { vec![table, list] } else { vec![table] };
        let case = Case::new(self.call, [language, inputs].concat());
        Case { edition, kinds, ..case }
    }

    /// The kinds that bytes of edition 2 have.
    pub fn kinds(&self, all: &[&[u8]]) -> Vec<Kind> {
        if self.edition == Edition::ONE {
            return Vec::new();
        }
        let lists = self.lists(all);
        let by_class = lists.by_class && !lists.by_symbol;
        let has = [true, lists.in_another, lists.below_a_complement, by_class];
        let kinds =
            [Kind::EditionTwo, Kind::InAnotherList, Kind::BelowAComplement, Kind::UnsplicedByClass];
        kinds.into_iter().zip(has).filter_map(|(kind, has)| has.then_some(kind)).collect()
    }

    /// How lists stand in lists, in any of these bytes.
    pub fn lists(&self, all: &[&[u8]]) -> Lists {
        let mut lists = Lists::default();
        for bytes in all {
            self.each_list(&mut bytes.to_vec(), |_, symbol, children, around| match around {
                Around::List(outer) if outer == *symbol => {
                    lists.by_symbol = true;
                    lists.empty |= children == 0;
                }
                Around::List(outer) if self.is_same(outer, *symbol) => {
                    lists.by_class = true;
                    lists.empty |= children == 0;
                }
                Around::List(_) => lists.in_another = true,
                Around::Complement(outer) => {
                    lists.below_a_complement |= self.is_same(outer, *symbol)
                }
                Around::Other => {}
            });
        }
        lists
    }

    fn is_same(&self, one: u8, other: u8) -> bool {
        self.classes.same(one.into(), other.into())
    }

    /// A pattern and a record, in edition 2 mostly mended, and the kind that this gives them.
    pub fn mended_pair(
        &self,
        rng: &mut Rng,
        library: &dyn Library,
        (pattern, record): Pair,
    ) -> (Pair, Option<Kind>) {
        if self.edition == Edition::ONE || rng.chance(8) {
            return ((pattern, record), None);
        }
        if let Some((last, kind)) = self.unspliced(rng, false).filter(|_| rng.chance(8)) {
            let pattern = if rng.chance(50) { last.clone() } else { vec![FIRST_NAME] };
            return ((pattern, last), Some(kind));
        }
        let lists = self.lists(&[&pattern, &record]);
        let others = self.unlike_lists(rng);
        let mend = |bytes| self.spliced(library, self.parted(others, bytes));
        let kind = (lists.by_symbol || lists.by_class).then_some(Kind::Mended);
        let (mut pattern, mut record) = (mend(pattern), mend(record));
        match rng.below(7) {
            0 => pattern = self.with_inner_list(rng, pattern, &[]),
            1 => pattern = self.with_inner_list(rng, pattern, &[COMPLEMENT]),
            2 => record = self.with_inner_list(rng, record, &[]),
            _ => {}
        }
        ((pattern, record), kind)
    }

    /// The same with an empty list of its class in one of the lists, of another symbol where the
    /// class has one, below the complements.
    pub fn with_inner_list(
        &self,
        rng: &mut Rng,
        mut bytes: Vec<u8>,
        complements: &[u8],
    ) -> Vec<u8> {
        let mut lists = Vec::new();
        self.each_list(&mut bytes.clone(), |at, symbol, children, _| {
            if children < u8::MAX {
                lists.push((at, *symbol));
            }
        });
        if lists.is_empty() {
            return bytes;
        }
        let (at, symbol) = rng.pick(&lists);
        bytes[at + 1] += 1;
        let inner = [complements, &[self.unlike_in_class(symbol), 0]].concat();
        bytes.splice(at + 2..at + 2, inner);
        bytes
    }

    /// Another symbol of a symbol's class, or itself where there is none.
    pub fn unlike_in_class(&self, symbol: u8) -> u8 {
        let mut others = (0..=u8::MAX).filter(|&other| other != symbol);
        others.find(|&other| self.is_same(symbol, other)).unwrap_or(symbol)
    }

    /// The entries of a sheet, in edition 2 mostly mended.
    pub fn mended_entries(
        &self,
        rng: &mut Rng,
        library: &dyn Library,
        entries: Vec<Vec<u8>>,
    ) -> Vec<Vec<u8>> {
        let (percent, others) = (rng.pick(&[100, 100, 100, 60]), self.unlike_lists(rng));
        let inner = rng.pick(&[0, 30]);
        let mut mended = |bytes| match self.edition == Edition::TWO && rng.chance(percent) {
            true => {
                let bytes = self.spliced(library, self.parted(others, bytes));
                if rng.chance(inner) {
                    self.with_inner_list(rng, bytes, &[])
                } else {
                    bytes
                }
            }
            false => bytes,
        };
        entries.into_iter().map(&mut mended).collect()
    }

    /// Adds an entry to those of an edition 2 sheet, now and then, that is unspliced.
    pub fn perhaps_last(&self, rng: &mut Rng, entries: &mut Vec<Vec<u8>>) -> Option<Kind> {
        let wanted = self.edition == Edition::TWO && rng.chance(14);
        let (entry, kind) = self.unspliced(rng, false).filter(|_| wanted)?;
        entries.push(entry);
        Some(kind)
    }

    /// A record, in its old form or as stored, that ends with a list directly inside one of its
    /// class and has a second fault there: no number of children, or a nesting of 33.
    pub fn unspliced(&self, rng: &mut Rng, stored: bool) -> Option<(Vec<u8>, Kind)> {
        let symbol = |children| self.table().iter().position(|&c| c == children);
        let (one, list) = (symbol(1)? as u8, symbol(LIST)?);
        let same: Vec<usize> =
            (0..self.table().len()).filter(|&other| self.classes.same(list, other)).collect();
        let inner = rng.pick(&same) as u8;
        let length: &[u8] = if stored { &[1, 0] } else { &[] };
        let (nesting, kind) = match rng.chance(50) {
            true => (rng.pick(&[0, 1, 30]), Kind::UnsplicedLast),
            false => (31, Kind::UnsplicedDeep),
        };
        let around = [vec![one; nesting], vec![list as u8, 1], length.to_vec()].concat();
        Some(([around, vec![inner]].concat(), kind))
    }

    /// Two list symbols of unlike classes, where the table has such; else bytes are spliced alone.
    fn unlike_lists(&self, rng: &mut Rng) -> Option<[u8; 2]> {
        let lists: Vec<u8> = (0..self.table().len())
            .filter(|&symbol| self.table()[symbol] == LIST && symbol < FIRST_NAME.into())
            .map(|symbol| symbol as u8)
            .collect();
        let one = *lists.first()?;
        let unlike: Vec<u8> = lists.into_iter().filter(|&list| !self.is_same(one, list)).collect();
        (!unlike.is_empty() && rng.chance(50)).then(|| [one, rng.pick(&unlike)])
    }

    /// The same with the symbol of a list directly inside one of its class exchanged for another of
    /// these, so that it is not any more.
    fn parted(&self, others: Option<[u8; 2]>, mut bytes: Vec<u8>) -> Vec<u8> {
        let Some([one, other]) = others else { return bytes };
        self.each_list(&mut bytes, |_, symbol, _, around| match around {
            Around::List(outer) if self.is_same(outer, *symbol) => {
                *symbol = if self.is_same(outer, one) { other } else { one };
            }
            _ => {}
        });
        bytes
    }

    /// A record or pattern spliced, if it can be.
    fn spliced(&self, library: &dyn Library, mut bytes: Vec<u8>) -> Vec<u8> {
        let mut output = vec![0; bytes.len()];
        let written = match bytes.len() <= PATTERN_LIMIT {
            true => library.splice_pattern(self.language(), &bytes, &mut output),
            false => library.splice_record(self.language(), &bytes, &mut output),
        };
        if written.word() == Some(Word::Bound) {
            bytes = output;
            bytes.truncate(written.count as usize);
        }
        bytes
    }

    /// Visits each list of a record or pattern: where it starts, its symbol, its number of children
    /// and what is directly around it.
    fn each_list(&self, bytes: &mut [u8], mut visit: impl FnMut(usize, &mut u8, u8, Around)) {
        let (mut open, mut at) = (vec![(1, Around::Other)], 0);
        while at < bytes.len() {
            while open.last().is_some_and(|&(left, _)| left == 0) {
                open.pop();
            }
            let Some((left, around)) = open.last_mut() else { return };
            *left -= 1;
            let (code, around) = (bytes[at], *around);
            at += 1;
            match self.table().get(usize::from(code)) {
                _ if code == COMPLEMENT => open.push((1, around.below_a_complement())),
                Some(&LIST) if at < bytes.len() => {
                    let children = bytes[at];
                    visit(at - 1, &mut bytes[at - 1], children, around);
                    open.push((children, Around::List(bytes[at - 1])));
                    at += 1;
                }
                children => open.push((children.copied().unwrap_or(0), Around::Other)),
            }
        }
    }
}

/// Whether lists stand in lists in certain ways.
#[derive(Default)]
pub struct Lists {
    /// Directly in one of the same symbol, or of the same class and another symbol.
    pub by_symbol: bool,
    pub by_class: bool,
    /// So, and without children.
    pub empty: bool,
    in_another: bool,
    below_a_complement: bool,
}

/// What is directly around a node: a list, complements in a list, or something else.
#[derive(Clone, Copy)]
enum Around {
    List(u8),
    Complement(u8),
    Other,
}

impl Around {
    fn below_a_complement(self) -> Self {
        match self {
            Around::List(list) | Around::Complement(list) => Around::Complement(list),
            Around::Other => Around::Other,
        }
    }
}
