//! The random cases of the least example: patterns that small records satisfy and others, sizes for
//! which there are not too many candidates, and allowances around the count that decides.

use crate::case::{Call, Case, Kind};
use crate::cases::{allowance, mended, pair, with_room, Pair, MOST};
use crate::make::Maker;
use crate::rng::Rng;
use crate::told::Told;
use interface::{
    Language, Library, Outcome, Word, Written, COMPLEMENT, EXAMPLE_LIMIT, FIRST_NAME, LIST,
};

pub fn example_case(rng: &mut Rng, table: Vec<u8>, library: &dyn Library) -> Case {
    let told = Told::new(rng, table, [Call::Example, Call::ExampleIn], false);
    let ((pattern, _), kind) = mended(rng, &told, library, small_pair);
    let mut kinds = told.kinds(&[&pattern]);
    kinds.extend(kind);
    let asked = Asked { library, language: told.language(), pattern: &pattern };
    let size = asked.size(rng);
    let (number, more) = asked.allowance(rng, size);
    kinds.extend(more);
    let size = match rng.below(30) {
        0 => rng.pick(&[7, 8, 256, 262, 1 << 16, u32::MAX]),
        1..=2 => 7,
        _ => size,
    };
    kinds.extend((size == 7).then_some(Kind::SizeOf7));
    let case = Case { number, size, ..told.case(rng, vec![pattern], kinds) };
    with_room(rng, case, library)
}

/// A pattern for a small record, now and then for any.
fn small_pair(rng: &mut Rng, table: &[u8], library: &dyn Library) -> Pair {
    if rng.chance(15) {
        return pair(rng, table, library);
    }
    let length = rng.between(1, EXAMPLE_LIMIT);
    let mut maker = Maker::new(rng, table);
    let mut terms = (0..12).map(|_| maker.term(length));
    let record = terms.find(|term| term.len() == length).unwrap_or_else(|| maker.term(length));
    let mut pattern = match maker.rng.below(10) {
        0 => unlike(&mut maker),
        1 => maker.search(),
        2..=6 if record.len() <= EXAMPLE_LIMIT => {
            return (nearly(maker.rng, table, &record), record)
        }
        _ => maker.pattern(&record),
    };
    if maker.rng.chance(20) {
        pattern.insert(0, COMPLEMENT);
    }
    (pattern, record)
}

/// A record as a pattern, whose last node may be a name, or another than it was.
fn nearly(rng: &mut Rng, table: &[u8], record: &[u8]) -> Vec<u8> {
    let mut pattern = record.to_vec();
    let leaf = pattern.last().is_some_and(|&symbol| table.get(usize::from(symbol)) == Some(&0));
    match rng.below(4) {
        0 if leaf => *pattern.last_mut().expect("it has a leaf") = FIRST_NAME,
        1 if leaf => pattern.insert(record.len() - 1, COMPLEMENT),
        _ => {}
    }
    pattern
}

/// A pattern that asks for terms unlike each other.
fn unlike(maker: &mut Maker) -> Vec<u8> {
    let two: Vec<u8> = (0..maker.table.len() as u8)
        .filter(|&symbol| matches!(maker.table[usize::from(symbol)], 2 | 3 | LIST))
        .collect();
    if two.is_empty() {
        return vec![COMPLEMENT, FIRST_NAME];
    }
    let symbol = maker.rng.pick(&two);
    let children = maker.table[usize::from(symbol)];
    let number = if children == LIST { maker.rng.between(2, 4) as u8 } else { children };
    let mut bytes = vec![symbol];
    bytes.extend((children == LIST).then_some(number));
    for child in 0..number {
        let name = FIRST_NAME + maker.rng.below(usize::from(child) + 1) as u8;
        if child > 0 && maker.rng.chance(70) {
            bytes.push(COMPLEMENT);
        }
        bytes.push(name);
    }
    bytes
}

/// A pattern whose example is looked for.
struct Asked<'a> {
    library: &'a dyn Library,
    language: Language<'a>,
    pattern: &'a [u8],
}

/// Candidates that may have to be tried, unlike for the pattern: mostly, and now and then.
const FEW: u64 = 1_500;
const MANY: u64 = 20_000;

impl Asked<'_> {
    fn least(&self, size: u32, allowance: u32) -> (Written, Vec<u8>) {
        self.library.least(self.language, self.pattern, size, allowance)
    }

    /// A size of which there are not too many candidates.
    fn size(&self, rng: &mut Rng) -> u32 {
        let most = self.most(if rng.chance(3) { MANY } else { FEW });
        let size = if rng.chance(75) { most } else { rng.below(most + 1) };
        size as u32
    }

    /// The largest size of which there are at most so many candidates, by the symbols that stand in
    /// the pattern, one of each class, and three others of a number of children.
    fn most(&self, limit: u64) -> usize {
        let (mut stand, mut others) = ([0; 256], [0; 256]);
        let classes = self.language.class_list();
        for (symbol, &children) in self.language.table.iter().enumerate() {
            if classes.get(symbol).map(|&class| usize::from(class)) != Some(symbol) {
                continue;
            }
            let stands = self.pattern.contains(&(symbol as u8));
            let kind = if stands { &mut stand } else { &mut others };
            kind[usize::from(children)] += 1u64;
        }
        let number = |children: u8| {
            let [stand, others] = [stand, others].map(|kind| kind[usize::from(children)]);
            stand + others.min(3)
        };
        // How many rows of so many terms have so many bytes.
        let mut rows = [[0u64; EXAMPLE_LIMIT + 1]; EXAMPLE_LIMIT + 1];
        rows[0][0] = 1;
        let (mut terms, mut sum) = ([0u64; EXAMPLE_LIMIT + 1], 0);
        for bytes in 1..=EXAMPLE_LIMIT {
            let fixed = (0..bytes).map(|n| number(n as u8) * rows[n][bytes - 1]);
            let lists = (0..bytes - 1).map(|n| number(LIST) * rows[n][bytes - 2]);
            terms[bytes] = fixed.chain(lists).sum();
            for n in 1..=bytes {
                rows[n][bytes] =
                    (1..=bytes).map(|first| terms[first] * rows[n - 1][bytes - first]).sum();
            }
            sum += terms[bytes];
            if sum > limit {
                return bytes - 1;
            }
        }
        EXAMPLE_LIMIT
    }

    /// An allowance around the count that decides, and what is special about that.
    fn allowance(&self, rng: &mut Rng, size: u32) -> (u32, Vec<Kind>) {
        let (written, record) = self.least(size, MOST);
        let mut kinds = Vec::new();
        let found = match written.word() {
            Some(Word::Bound) => {
                kinds.extend(self.kinds(&record, size));
                outcome(written)
            }
            // The greatest count of the candidates, none of which is bound.
            Some(Word::NoExample) => {
                let (mut spent, mut enough) = (0, MOST);
                while spent < enough {
                    let middle = (spent + enough) / 2;
                    match self.least(size, middle).0.word() {
                        Some(Word::Spent) => spent = middle + 1,
                        _ => enough = middle,
                    }
                }
                Outcome::counted(Word::None, 0, enough.into())
            }
            _ => outcome(written),
        };
        let (number, more) = allowance(rng, found);
        let spent = self.least(size, number).0.word() == Some(Word::Spent);
        if spent && number < found.count as u32 {
            kinds.push(match found.word() {
                Some(Word::Bound) if self.is_before(&record, number) => Kind::SpentBefore,
                _ => Kind::SpentAlone,
            });
        }
        (number, [kinds, more].concat())
    }

    /// Whether a record shorter than the example, or before it, is spent with an allowance.
    fn is_before(&self, record: &[u8], allowance: u32) -> bool {
        let shorter = record.len() as u32 - 1;
        self.least(shorter, allowance).0.word() == Some(Word::Spent)
    }

    /// What is special about an example.
    fn kinds(&self, record: &[u8], size: u32) -> Vec<Kind> {
        use Kind::*;
        let lengths = [ExampleOf1, ExampleOf2, ExampleOf3, ExampleOf4, ExampleOf5, ExampleOf6];
        let mut kinds = vec![lengths[record.len() - 1]];
        kinds.extend((record.len() as u32 == size).then_some(ByteLess));
        let table = self.language.table;
        let (mut at, mut others) = (0, Vec::new());
        while let Some(&symbol) = record.get(at) {
            if !self.pattern.contains(&symbol) && !others.contains(&symbol) {
                others.push(symbol);
            }
            at += if table[usize::from(symbol)] == LIST { 2 } else { 1 };
        }
        kinds.extend((!others.is_empty()).then_some(Alike));
        let children = |symbol: &u8| table[usize::from(*symbol)];
        let two = others
            .iter()
            .enumerate()
            .any(|(i, symbol)| others[..i].iter().any(|other| children(other) == children(symbol)));
        kinds.extend(two.then_some(TwoAlike));
        kinds
    }
}

fn outcome(written: Written) -> Outcome {
    Outcome { number: written.number, index: 0, count: written.count }
}
