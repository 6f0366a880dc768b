//! A game of a loader and a sender: whether the loader can bring about that a goal is satisfied.
//!
//! The states are gone through depth first. Each is read once, and both the goal and the moves of
//! whoever is to move are searched in it; a pass goes on with the state as it is.

use crate::{
    fault::Fault, grammar::Grammar, in_sheet, pattern::Steps, record::Record, replace,
    search::Found, search::Search, sheet::Sheet, Independent, Refusal,
};
use interface::{
    edition_of, Answer, Edition, Language, Opening, Outcome, Side, Word, ABSENT, ANSWER,
    TURNS_LIMIT,
};

/// What is asked: can the loader, who begins, bring about the goal from a record?
pub struct Asked<'a> {
    pub loader: Side<'a>,
    pub sender: Side<'a>,
    pub goal: &'a [u8],
    pub record: &'a [u8],
    pub turns: u32,
    pub allowance: u32,
}

/// Plays a game: numbers 24, 1, 14, those of the four sheets, of the goal and of the record, or what
/// it comes to.
pub fn play(variant: Independent, language: Language, asked: Asked) -> Result<Outcome, Refusal> {
    let Asked { loader, sender, goal, record, turns, allowance } = asked;
    if turns > TURNS_LIMIT {
        return Err(Fault::new(Word::Turns, 0).into());
    }
    let language = in_sheet(language, loader.rules);
    let grammar = Grammar::read(language)?;
    let loader = Moves::read(grammar, language.edition, loader)?;
    let sender = Moves::read(grammar, language.edition, sender)?;
    let mut goal_steps = Steps::new();
    goal_steps.read(grammar, goal)?;
    let ends = &mut Vec::new();
    let record = Record::read(grammar, record, ends)?;
    let mut game = Game { variant, grammar, sides: [loader, sender], goal: goal_steps, allowance };
    game.merge();
    Ok(match game.end(record, turns, LOADER) {
        Ok(Some(opening)) => Outcome::counted(Word::Bound, opening.index(), 0),
        Ok(None) => Outcome::counted(Word::None, 0, 0),
        Err(Spent) => Outcome::counted(Word::Spent, 0, allowance.into()),
    })
}

/// The moves of a side: its rules, by the steps at which they start, and a template for each.
struct Moves<'a> {
    steps: Steps,
    starts: Vec<usize>,
    templates: Vec<&'a [u8]>,
}

impl<'a> Moves<'a> {
    /// Reads the sheets of a side: the rules' numbers, then the templates', or accepted.
    fn read(grammar: Grammar, edition: Edition, side: Side<'a>) -> Result<Self, Refusal> {
        let rules = sheet(side.rules, edition)?.rules()?;
        let (mut steps, mut starts) = (Steps::new(), Vec::new());
        for (index, bytes) in rules.entries().enumerate() {
            starts.push(steps.read(grammar, bytes).map_err(|fault| fault.of_entry(index))?);
        }
        let templates = sheet(side.templates, edition)?;
        if templates.entries().count() != starts.len() {
            return Err(Fault::new(Word::Directory, 0).into());
        }
        let templates: Vec<&[u8]> = templates.rules()?.entries().collect();
        let mut template_steps = Steps::new();
        for (index, (bytes, &start)) in templates.iter().zip(&starts).enumerate() {
            template_steps.clear();
            let read = template_steps.read(grammar, bytes).map(|_| ());
            read.and_then(|()| replace::check(template_steps.as_slice(), steps.free(start)))
                .map_err(|fault| fault.of_entry(index))?;
        }
        Ok(Moves { steps, starts, templates })
    }
}

/// A sheet in an edition: numbers 6 and 9, or accepted.
fn sheet(bytes: &[u8], edition: Edition) -> Result<Sheet<'_>, Fault> {
    let sheet = Sheet::read(bytes)?;
    match edition_of(bytes) == edition {
        true => Ok(sheet),
        false => Err(Fault::new(Word::Directory, 1)),
    }
}

/// A search was spent.
struct Spent;

/// Who is to move, by the place among the sides.
const LOADER: usize = 0;

struct Game<'a> {
    variant: Independent,
    grammar: Grammar<'a>,
    /// The loader's moves and the sender's.
    sides: [Moves<'a>; 2],
    goal: Steps,
    allowance: u32,
}

impl Game<'_> {
    /// Replaces each symbol of goal and rules by its class.
    fn merge(&mut self) {
        if let Some(classes) = self.grammar.classes {
            self.goal.merge(classes);
            self.sides.iter_mut().for_each(|side| side.steps.merge(classes));
        }
    }

    /// What comes of a state with so many turns left: if the loader forces the goal, by which move
    /// of whoever is to move that was settled last.
    fn end(&self, state: Record, turns: u32, mover: usize) -> Result<Option<Opening>, Spent> {
        let mut searched = state;
        let merged = self.grammar.classes.map(|classes| classes.merged(state.bytes));
        if let Some(merged) = &merged {
            searched.bytes = merged;
        }
        let goal = &mut Search::new(self.variant, &self.goal, searched);
        if self.is_bound(goal, 0)? {
            return Ok(Some(Opening::NoMove));
        }
        if turns == 0 {
            return Ok(None);
        }
        let side = &self.sides[mover];
        let search = &mut Search::new(self.variant, &side.steps, searched);
        let (mut last, mut ends) = (None, Vec::new());
        for rule in 0..side.starts.len() {
            let Some(next) = self.moved(search, state, side, rule)? else { continue };
            let next = Record::read(self.grammar, &next, &mut ends).ok();
            let next = next.expect("what a template gives is an accepted record");
            let forced = self.end(next, turns - 1, 1 - mover)?.map(|_| Opening::Rule(rule));
            // One move is enough for the loader if it forces the goal, for the sender if it doesn't.
            if forced.is_some() == (mover == LOADER) {
                return Ok(forced);
            }
            last = Some(forced);
        }
        match last {
            Some(forced) => Ok(forced),
            None => Ok(self.end(state, turns - 1, 1 - mover)?.map(|_| Opening::Pass)),
        }
    }

    /// Whether the pattern that starts at a step is bound.
    fn is_bound(&self, search: &mut Search, start: usize) -> Result<bool, Spent> {
        match search.run(start, self.allowance).0 {
            Found::Bound => Ok(true),
            Found::None => Ok(false),
            Found::Spent => Err(Spent),
        }
    }

    /// The state that a rule leads to, if that is a move.
    fn moved(
        &self,
        search: &mut Search,
        state: Record,
        side: &Moves,
        rule: usize,
    ) -> Result<Option<Vec<u8>>, Spent> {
        if !self.is_bound(search, side.starts[rule])? {
            return Ok(None);
        }
        let mut answer = Answer([ABSENT; ANSWER]);
        search.answer(&mut answer.0);
        Ok(replace::filled(self.grammar, side.templates[rule], state, &answer).ok())
    }
}
