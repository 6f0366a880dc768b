//! The random games: rows whose elements are exchanged, and moves like a record; small ones, since a
//! game has as many searches as there are ways to play it.

use crate::case::{sides, Call, Case, Kind};
use crate::make::{damaged, damaged_sheet, Maker};
use crate::replaces::any_move;
use crate::rng::Rng;
use crate::told::Told;
use interface::{
    sheet_of, Edition, Language, Library, Outcome, Word, COMPLEMENT, FIRST_NAME, FIRST_RUN, LIST,
    NESTING_LIMIT, PATTERN_LIMIT, RECORD_LIMIT, RULES_LIMIT, TURNS_LIMIT,
};

/// A rule and a template.
type Move = [Vec<u8>; 2];

/// The moves of the loader and of the sender, the goal and the start, before they are sheets.
struct Game {
    sides: [Vec<Move>; 2],
    goal: Vec<u8>,
    record: Vec<u8>,
    turns: u32,
    kinds: Vec<Kind>,
}

pub fn case(rng: &mut Rng, table: Vec<u8>, library: &dyn Library) -> Case {
    let told = Told::new(rng, table, [Call::Play, Call::PlayIn], true);
    let row = Row::of(told.table()).filter(|_| rng.chance(70));
    let mut game = match row {
        Some(row) if rng.chance(8) => row.grown(rng),
        Some(row) => row.game(rng),
        None => any_game(rng, &told, library),
    };
    game.aim(rng, &told, library);
    game.exchange(rng, &told);
    let spoilt = if rng.chance(30) { game.spoil(rng, &told) } else { None };
    let mut sheets = game.sheets(told.edition);
    if spoilt.is_none() && rng.chance(20) {
        game.kinds.extend(spoil_sheet(rng, &mut sheets));
    }
    let Game { goal, record, turns, mut kinds, .. } = game;
    kinds.extend(spoilt);
    let inputs = [sheets, vec![goal, record]].concat();
    let number = {
        let play = |n, language| played(library, turns, language, &inputs, n);
        let (number, kind) = allowance(rng, |n| play(n, told.language()));
        kinds.extend(kind);
        let without = Language { classes: None, ..told.language() };
        let decides = told.brings() && play(number, told.language()) != play(number, without);
        kinds.extend(decides.then_some(Kind::GameByClass));
        number
    };
    kinds.extend((told.edition == Edition::TWO).then_some(Kind::GameInEditionTwo));
    kinds.extend(match turns {
        0 => Some(Kind::NoTurns),
        TURNS_LIMIT => Some(Kind::SixTurns),
        turns => (turns > TURNS_LIMIT).then_some(Kind::SevenTurns),
    });
    Case { number, turns, ..told.case(rng, inputs, kinds) }
}

/// What a game of these inputs after the language comes to.
fn played(
    library: &dyn Library,
    turns: u32,
    language: Language,
    inputs: &[Vec<u8>],
    allowance: u32,
) -> Outcome {
    let inputs: Vec<&[u8]> = inputs.iter().map(Vec::as_slice).collect();
    let [sheets @ .., goal, record] = &inputs[..] else { panic!("a game has six inputs") };
    let [loader, sender] = sides(sheets);
    library.play(turns, language, loader, sender, goal, record, allowance)
}

/// Past this a game's deciding count is not looked for.
const CAP: u32 = 1_024;

/// An allowance at or around the least with which a game is not spent, or any that makes no long
/// game.
fn allowance(rng: &mut Rng, play: impl Fn(u32) -> Outcome) -> (u32, Option<Kind>) {
    let spent = |n| play(n).word() == Some(Word::Spent);
    let capped = play(CAP);
    match capped.word() {
        Some(Word::Bound | Word::None) => {}
        Some(Word::Spent) => return (rng.pick(&[0, 1, 8, 40, CAP]), None),
        _ => return (rng.pick(&[0, 9, CAP, u32::MAX]), None),
    }
    if rng.chance(45) {
        return (rng.pick(&[CAP, CAP, 100_000, u32::MAX]), None);
    }
    let (mut low, mut high) = (0, CAP);
    while low < high {
        let middle = low + (high - low) / 2;
        (low, high) = if spent(middle) { (middle + 1, high) } else { (low, middle) };
    }
    match rng.below(10) {
        0..=4 => (low, Some(Kind::AtTheDecidingCount)),
        5..=7 => (low.saturating_sub(1), Some(Kind::OneBelowTheDecidingCount)),
        8 => (rng.below(low as usize + 1) as u32, None),
        _ => (low + 1, None),
    }
}

/// The symbols of games of a row: a list and leaves.
struct Row {
    list: u8,
    leaves: Vec<u8>,
}

impl Row {
    fn of(table: &[u8]) -> Option<Self> {
        let symbols = |children: u8| {
            let all = (0..).zip(table.iter().take(usize::from(FIRST_NAME)));
            all.filter(move |(_, &c)| c == children).map(|(symbol, _): (u8, _)| symbol)
        };
        let (list, leaves) = (symbols(LIST).next()?, symbols(0).take(3).collect::<Vec<u8>>());
        (!leaves.is_empty()).then_some(Row { list, leaves })
    }

    /// A row of so many elements.
    fn record(&self, rng: &mut Rng, elements: usize) -> Vec<u8> {
        let elements: Vec<u8> = (0..elements).map(|_| rng.pick(&self.leaves)).collect();
        [vec![self.list, elements.len() as u8], elements].concat()
    }

    fn game(&self, rng: &mut Rng) -> Game {
        let sides = [0; 2].map(|_| {
            let number = rng.pick(&[0, 1, 1, 1, 2, 2, 2, 3]);
            (0..number).map(|_| self.one_move(rng)).collect()
        });
        let elements = rng.below(6);
        let (record, goal) = (self.record(rng, elements), self.goal(rng));
        Game::new(rng, sides, goal, record)
    }

    fn one_move(&self, rng: &mut Rng) -> Move {
        let (list, a, b) = (self.list, rng.pick(&self.leaves), rng.pick(&self.leaves));
        let (run, name) = (FIRST_RUN, FIRST_NAME);
        match rng.below(14) {
            // The first a becomes b, or is gone; the first that is no a becomes one.
            0..=4 => [vec![list, 3, run, a, run + 1], vec![list, 3, run, b, run + 1]],
            5 => [vec![list, 3, run, a, run + 1], vec![list, 2, run, run + 1]],
            6..=7 => [vec![list, 3, run, COMPLEMENT, a, run + 1], vec![list, 3, run, a, run + 1]],
            // The first goes to the end, one more, each once more.
            8..=9 => [vec![list, 2, name, run], vec![list, 2, run, name]],
            10 => [vec![list, 1, run], vec![list, 2, run, a]],
            11 => [vec![list, 1, run], vec![list, 2, run, run]],
            // No row any more, and whatever there is within a row.
            12 => [vec![list, 2, a, run], vec![b]],
            _ => [vec![name], vec![list, 2, name, a]],
        }
    }

    fn goal(&self, rng: &mut Rng) -> Vec<u8> {
        let (list, a, b) = (self.list, rng.pick(&self.leaves), rng.pick(&self.leaves));
        let (run, name) = (FIRST_RUN, FIRST_NAME);
        match rng.below(10) {
            0..=1 => vec![list, 3, run, a, run + 1],
            2..=3 => vec![COMPLEMENT, list, 3, run, COMPLEMENT, a, run + 1],
            4 => vec![list, 4, run, a, b, run + 1],
            5 => vec![list, 4, run, name, name, run + 1],
            6 => vec![list, 3, name, run, name],
            7 => vec![COMPLEMENT, list, 1, run],
            8 => vec![list, 2, run, run],
            _ => vec![b],
        }
    }

    /// A game whose loader has only a move that is outgrown, or nearly so, so that he passes.
    fn grown(&self, rng: &mut Rng) -> Game {
        let (list, a, run) = (self.list, rng.pick(&self.leaves), FIRST_RUN);
        let doubled = [vec![list, 1, run], vec![list, 2, run, run]];
        let (elements, outgrown) = (rng.between(120, 140), rng.chance(80));
        let elements = if outgrown { elements.max(128) } else { elements };
        let exchange = [vec![list, 2, run, a], vec![list, 2, run, a]];
        let sides = [vec![doubled], if rng.chance(50) { vec![exchange] } else { vec![] }];
        let (record, goal) = (self.record(rng, elements), self.goal(rng));
        let mut game = Game::new(rng, sides, goal, record);
        game.turns = game.turns.min(3);
        game.kinds.extend((outgrown && game.turns > 0).then_some(Kind::OutgrownMove));
        game
    }
}

/// A game of moves like a record, some for the record and some for what becomes of it.
fn any_game(rng: &mut Rng, told: &Told, library: &dyn Library) -> Game {
    let budget = rng.pick(&[3, 12, 30]);
    let record = Maker::new(rng, told.table()).term(budget);
    let cheap = |rule: &[u8]| library.find(told.language(), rule, &record, CAP).0.count < 200;
    let mut sides = [Vec::new(), Vec::new()];
    for side in &mut sides {
        for _ in 0..rng.pick(&[0, 1, 1, 2, 2]) {
            let made: Move = any_move(rng, told, library, &record);
            let made = told.mended_entries(rng, library, made.to_vec());
            side.extend(<Move>::try_from(made).ok().filter(|[rule, _]| cheap(rule)));
        }
    }
    let goal = Maker::new(rng, told.table()).pattern(&record);
    let goal = told.mended_entries(rng, library, vec![goal]).concat();
    let record = told.mended_entries(rng, library, vec![record]).concat();
    Game::new(rng, sides, goal, record)
}

impl Game {
    /// A game of so many turns that there are not too many ways to play it.
    fn new(rng: &mut Rng, sides: [Vec<Move>; 2], goal: Vec<u8>, record: Vec<u8>) -> Self {
        let mut turns = rng.pick(&[0, 1, 2, 3, 3, 4, 4, 5, 5, 6, 6, 6]);
        let [loader, sender] = [0, 1].map(|side| sides[side].len().max(1));
        let ways = |turns: u32| loader.pow(turns.div_ceil(2)) * sender.pow(turns / 2);
        while ways(turns) > 40 {
            turns -= 1;
        }
        if rng.chance(3) {
            turns = rng.pick(&[7, 7, 8, 262, u32::MAX]);
        }
        let none = turns > 0 && sides.iter().all(Vec::is_empty);
        let kinds = Vec::from_iter(none.then_some(Kind::PassesOnly));
        Game { sides, goal, record, turns, kinds }
    }

    /// Makes a state the goal, now and then, that some way to play the game leads to.
    fn aim(&mut self, rng: &mut Rng, told: &Told, library: &dyn Library) {
        let most = self.turns.min(TURNS_LIMIT) as usize;
        if most == 0 || rng.chance(40) {
            return;
        }
        let (mut state, mut last) = (self.record.clone(), None);
        for turn in 0..rng.between(1, most) {
            let moves = &self.sides[turn % 2];
            let first = rng.below(moves.len().max(1));
            for [rule, template] in moves.iter().cycle().skip(first).take(moves.len()) {
                let (written, next) = library.applied(told.language(), rule, template, &state, CAP);
                if written.word() == Some(Word::Bound) {
                    (state, last) = (next, Some(turn % 2));
                    break;
                }
            }
        }
        if state.len() <= PATTERN_LIMIT && state != self.record {
            self.kinds.extend(last.map(|side| [Kind::LoadersResult, Kind::SendersResult][side]));
            self.goal = state;
        }
    }

    /// Exchanges symbols within their classes.
    fn exchange(&mut self, rng: &mut Rng, told: &Told) {
        if told.brings() {
            let moves = self.sides.iter_mut().flatten().flatten();
            for bytes in moves.chain([&mut self.goal, &mut self.record]) {
                *bytes = told.classes.exchanged(rng, std::mem::take(bytes));
            }
        }
    }

    /// Breaks one of the inputs.
    fn spoil(&mut self, rng: &mut Rng, told: &Told) -> Option<Kind> {
        if rng.chance(20) {
            return self.loosen(rng);
        }
        let kinds = [
            Kind::FaultInLoaderRules,
            Kind::FaultInLoaderTemplates,
            Kind::FaultInSenderRules,
            Kind::FaultInSenderTemplates,
            Kind::FaultInGoal,
            Kind::FaultInStart,
        ];
        let place = rng.below(kinds.len());
        let bytes = match place {
            0..=3 => {
                let moves = &mut self.sides[place / 2];
                if moves.is_empty() || rng.chance(6) {
                    let number = if rng.chance(70) { RULES_LIMIT + 1 } else { RULES_LIMIT };
                    moves.resize(number, [vec![0], vec![0]]);
                }
                let at = rng.below(moves.len());
                &mut moves[at][place % 2]
            }
            4 => &mut self.goal,
            _ => &mut self.record,
        };
        let limit = if place == 5 { RECORD_LIMIT } else { PATTERN_LIMIT };
        *bytes = at_fault(rng, told, std::mem::take(bytes), limit);
        Some(kinds[place])
    }

    /// Makes a template loose: by a complement, or by a name that its rule has not.
    fn loosen(&mut self, rng: &mut Rng) -> Option<Kind> {
        let moves = self.sides.iter_mut().flatten();
        let mut moves: Vec<_> = moves.collect();
        let at = rng.below(moves.len().max(1));
        let [_, template] = moves.get_mut(at)?;
        *template = match rng.below(3) {
            0 => [&[COMPLEMENT], &template[..]].concat(),
            1 => vec![FIRST_NAME + 31],
            _ => vec![COMPLEMENT, FIRST_NAME],
        };
        Some(Kind::LooseMove)
    }

    /// The four sheets.
    fn sheets(&self, edition: Edition) -> Vec<Vec<u8>> {
        let part = |side: usize, part: usize| {
            let entries: Vec<Vec<u8>> =
                self.sides[side].iter().map(|one| one[part].clone()).collect();
            sheet_of(edition, &entries)
        };
        vec![part(0, 0), part(0, 1), part(1, 0), part(1, 1)]
    }
}

/// A pattern or record with a fault: some byte, nesting 33, too long, stray or unspliced.
fn at_fault(rng: &mut Rng, told: &Told, bytes: Vec<u8>, limit: usize) -> Vec<u8> {
    let symbol = |children: u8| told.table().iter().position(|&c| c == children).map(|s| s as u8);
    let unspliced = told.unspliced(rng, false).map(|(bytes, _)| bytes);
    match (rng.below(10), symbol(1), unspliced) {
        (0, Some(one), _) => [vec![one; NESTING_LIMIT], vec![0]].concat(),
        (1, ..) => Maker::new(rng, told.table()).full(limit + 1),
        (2, ..) => vec![FIRST_RUN],
        (3..=4, _, Some(unspliced)) if told.edition == Edition::TWO => unspliced,
        _ => damaged(rng, bytes),
    }
}

/// Breaks one of the sheets, or makes it unlike the others.
fn spoil_sheet(rng: &mut Rng, sheets: &mut [Vec<u8>]) -> Option<Kind> {
    match rng.below(4) {
        0 => {
            let place = rng.between(1, 3);
            sheets[place][1] ^= 128;
            Some(Kind::UnlikeEditions)
        }
        1 => {
            // A template more or less, in the edition of the others.
            let place = rng.pick(&[1, 3]);
            let count = u16::from_le_bytes([sheets[place][0], sheets[place][1]]);
            let edition = interface::edition_of(&sheets[place]);
            let number = usize::from(count & 255);
            let other = if number > 0 && rng.chance(50) { number - 1 } else { number + 1 };
            let other = if rng.chance(10) { RULES_LIMIT + 1 } else { other };
            sheets[place] = sheet_of(edition, &vec![vec![0]; other]);
            Some(Kind::UnlikeNumbers)
        }
        _ => {
            let place = rng.below(4);
            sheets[place] = damaged_sheet(rng, std::mem::take(&mut sheets[place]));
            None
        }
    }
}
