//! The random cases of replacement: templates of a rule's own names and others, and results at a
//! record's limits.

use crate::case::{Call, Case, Kind};
use crate::cases::{allowance, made, pair, with_another_run, with_room, Made, MOST};
use crate::make::Maker;
use crate::plains::Plain;
use crate::rng::Rng;
use crate::told::{Forms, Told};
use interface::{
    Answer, Edition, Library, Outcome, Word, COMPLEMENT, FIRST_NAME, FIRST_RUN, LIST,
    NESTING_LIMIT, RECORD_LIMIT,
};

pub fn apply_case(rng: &mut Rng, table: Vec<u8>, library: &dyn Library) -> Case {
    let case = replaced(rng, table, library, [Call::Apply, Call::ApplyIn]);
    with_room(rng, case, library)
}

pub fn look_case(rng: &mut Rng, table: Vec<u8>, library: &dyn Library) -> Case {
    replaced(rng, table, library, [Call::Look, Call::LookIn])
}

/// A case of a replacement by either of these forms.
pub fn replaced(rng: &mut Rng, table: Vec<u8>, library: &dyn Library, forms: Forms) -> Case {
    if rng.chance(35) {
        let told = Told::new(rng, table.clone(), forms, false);
        if let Some(made) = at_a_limit(rng, &told) {
            let ([rule, template, record], kinds) = made;
            let found = library.find(told.language(), &rule, &record, MOST).0;
            return with_allowance(rng, told, [rule, template, record], found, kinds);
        }
    }
    let Made { told, pattern, record, found, mut kinds } = made(rng, table, library, forms, pair);
    let free = Free::of(&pattern, found);
    let (template, kind) = free.template(rng, told.table(), &pattern, &record);
    kinds.extend(kind);
    let template = told.mended_entries(rng, library, vec![template]).concat();
    with_allowance(rng, told, [pattern, template, record], found.0, kinds)
}

/// The case of a rule, a template and a record with an allowance around the count found.
fn with_allowance(
    rng: &mut Rng,
    told: Told,
    inputs: [Vec<u8>; 3],
    found: Outcome,
    kinds: Vec<Kind>,
) -> Case {
    let (number, more) = allowance(rng, found);
    Case { number, ..told.case(rng, inputs.to_vec(), [kinds, more].concat()) }
}

/// A rule like a record and a template for it, mostly of the rule's own names.
pub fn any_move(rng: &mut Rng, told: &Told, library: &dyn Library, record: &[u8]) -> [Vec<u8>; 2] {
    let rule = Maker::new(rng, told.table()).pattern(record);
    let found = library.find(told.language(), &rule, record, MOST);
    let (template, _) = Free::of(&rule, found).template(rng, told.table(), &rule, record);
    [rule, template]
}

/// The codes of names and run names that are free in a rule, and of those that only stand within
/// its complements.
struct Free {
    names: Vec<u8>,
    runs: Vec<u8>,
    within: Vec<u8>,
}

impl Free {
    /// By the answer; of a rule that is not bound, by what stands before its first complement.
    fn of(rule: &[u8], (outcome, answer): (Outcome, Answer)) -> Self {
        let bound = outcome.word() == Some(Word::Bound);
        let before = rule.split(|&code| code == COMPLEMENT).next().unwrap_or(&[]);
        let is_free = |code: &u8| match *code {
            code if !bound => before.contains(&code),
            code if code < FIRST_RUN => answer.name((code - FIRST_NAME).into()).is_some(),
            code => answer.run((code - FIRST_RUN).into()).is_some(),
        };
        let standing = |code: &u8| rule.contains(code);
        Free {
            names: (FIRST_NAME..FIRST_RUN).filter(is_free).collect(),
            runs: (FIRST_RUN..COMPLEMENT).filter(is_free).collect(),
            within: (FIRST_NAME..COMPLEMENT)
                .filter(|code| standing(code) && !is_free(code))
                .collect(),
        }
    }

    /// The names, and run names too if they may stand there, that only stand within complements, and
    /// those that do not stand in the rule.
    fn others(&self, run: bool) -> [Vec<u8>; 2] {
        let end = if run { COMPLEMENT } else { FIRST_RUN };
        let known = [&self.names[..], &self.runs, &self.within].concat();
        [
            self.within.iter().copied().filter(|&code| code < end).collect(),
            (FIRST_NAME..end).filter(|code| !known.contains(code)).collect(),
        ]
    }

    /// A template like the record with the rule's names in places, and these.
    fn own_template(&self, rng: &mut Rng, table: &[u8], record: &[u8]) -> (Vec<u8>, Vec<usize>) {
        let like = Maker::new(rng, table).pattern(record);
        let Plain { codes: mut template, variables, .. } = Plain::of(table, &like);
        let leaf = table.iter().position(|&children| children == 0).unwrap_or(0) as u8;
        for &at in &variables {
            let run = template[at] >= FIRST_RUN && !self.runs.is_empty();
            let among = if run { &self.runs } else { &self.names };
            template[at] = if among.is_empty() { leaf } else { rng.pick(among) };
        }
        (template, variables)
    }

    /// A template for a rule, mostly of its own names, and its kind.
    fn template(
        &self,
        rng: &mut Rng,
        table: &[u8],
        rule: &[u8],
        record: &[u8],
    ) -> (Vec<u8>, Option<Kind>) {
        if rng.chance(8) {
            return (rule.to_vec(), Some(Kind::RuleAsTemplate));
        }
        let (mut template, variables) = self.own_template(rng, table, record);
        if variables.is_empty() {
            return (template, None);
        }
        let at = rng.pick(&variables);
        let [within, absent] = self.others(template[at] >= FIRST_RUN);
        let kind = match rng.below(100) {
            0..=7 if !within.is_empty() => {
                template[at] = rng.pick(&within);
                Kind::WithinAComplement
            }
            0..=13 if !absent.is_empty() => {
                template[at] = rng.pick(&absent);
                Kind::NotFree
            }
            14..=19 => {
                template.insert(at, COMPLEMENT);
                Kind::ComplementInTemplate
            }
            20..=23 => return (with_another_run(rng, template), None),
            24..=29 => return (Maker::new(rng, table).perhaps_damaged(template, 100), None),
            _ => Kind::OwnNames,
        };
        (template, Some(kind))
    }
}

/// A rule, a template and a record.
type Move = [Vec<u8>; 3];

/// A move whose result is just within a limit of records or one past it, in edition 2 by splicing
/// now and then, where the table has the symbols.
fn at_a_limit(rng: &mut Rng, told: &Told) -> Option<(Move, Vec<Kind>)> {
    let symbol = |children: u8| told.table().iter().position(|&c| c == children).map(|s| s as u8);
    let (list, leaf) = (symbol(LIST)?, symbol(0)?);
    let over = rng.below(2);
    let kinds = |two: [Kind; 2]| vec![two[over]];
    Some(match rng.below(3) {
        0 => {
            let (made, spliced) = elements(rng, told, list, leaf, usize::from(u8::MAX) + over);
            let mut kinds = kinds([Kind::ResultOf255, Kind::ResultOf256]);
            kinds.extend(spliced.then_some(Kind::LimitBySplicing));
            (made, kinds)
        }
        1 => {
            let made = bytes(rng, list, symbol(1)?, leaf, RECORD_LIMIT + over);
            (made, kinds([Kind::ResultOf4096, Kind::ResultOf4097]))
        }
        _ => {
            let made = nesting(rng, told, list, symbol(1)?, leaf, NESTING_LIMIT + over);
            (made, kinds([Kind::Nesting32, Kind::Nesting33]))
        }
    })
}

/// A result whose list has so many elements: a run some times and leaves, or in edition 2 a list that
/// is spliced in.
fn elements(rng: &mut Rng, told: &Told, list: u8, leaf: u8, number: usize) -> (Move, bool) {
    let times = rng.between(1, 6);
    let each = rng.between(20, number / times.max(2));
    let leaves = number - times * each;
    let spliced = told.edition == Edition::TWO && rng.chance(60);
    let (rule, code, inner) = match spliced {
        true => (vec![FIRST_NAME], FIRST_NAME, told.unlike_in_class(list)),
        false => (vec![list, 1, FIRST_RUN], FIRST_RUN, list),
    };
    let record = [vec![inner, each as u8], vec![leaf; each]].concat();
    let template = [vec![list, (times + leaves) as u8], vec![code; times], vec![leaf; leaves]];
    ([rule, template.concat(), record], spliced)
}

/// A result of so many bytes: a run of terms of some 25 bytes, put in some times, and leaves.
fn bytes(rng: &mut Rng, list: u8, one: u8, leaf: u8, number: usize) -> Move {
    let (times, nodes) = (rng.between(1, 3), rng.between(25, 30));
    let terms = (number - 2) / (times * nodes);
    let leaves = number - 2 - times * nodes * terms;
    let term = [vec![one; nodes - 1], vec![leaf]].concat();
    let record = [vec![list, terms as u8], term.repeat(terms)].concat();
    let template = [vec![list, (times + leaves) as u8], vec![FIRST_RUN; times], vec![leaf; leaves]];
    [vec![list, 1, FIRST_RUN], template.concat(), record]
}

/// A result of so much nesting: a chain in the template and one in the record, a list between them,
/// which edition 2 splices.
fn nesting(rng: &mut Rng, told: &Told, list: u8, one: u8, leaf: u8, number: usize) -> Move {
    let lists = if told.edition == Edition::TWO { 1 } else { 2 };
    let (chains, most) = (number - lists - 1, NESTING_LIMIT - 2);
    let above = rng.between(chains.saturating_sub(most), chains.min(most));
    let template = [vec![one; above], vec![list, 1, FIRST_NAME]].concat();
    let inner = [vec![told.unlike_in_class(list), 1], vec![one; chains - above], vec![leaf]];
    [vec![FIRST_NAME], template, inner.concat()]
}
