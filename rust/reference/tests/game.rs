//! Games: what is forced and by which move, passes, allowances, and refusals in their order.

use interface::{sheet_of, Edition, Language, Library, Outcome, Side, Word, LIST, NO_MOVE, PASS};
use notation::Symbols;
use reference::{Reference, Shortcuts};

const SYMBOLS: &str = "open shut held gate/1 row/2 gates/* stopped=held doors=gates";

/// The sheets of moves, of rules and of templates.
type Sheets = [Vec<u8>; 2];

fn sheets(symbols: &Symbols, edition: Edition, moves: &str) -> Sheets {
    let moves: Vec<_> = moves
        .split("; ")
        .filter(|text| !text.is_empty())
        .map(|text| symbols.parsed_move(text).unwrap())
        .collect();
    let rules: Vec<_> = moves.iter().map(|one| one.rule.bytes.clone()).collect();
    let templates: Vec<_> = moves.iter().map(|one| one.template.bytes.clone()).collect();
    [sheet_of(edition, &rules), sheet_of(edition, &templates)]
}

fn side([rules, templates]: &Sheets) -> Side<'_> {
    Side { rules, templates }
}

/// A game of texts: the loader's moves, the sender's, the goal and the start.
struct Game {
    symbols: Symbols,
    edition: Edition,
    texts: [&'static str; 4],
}

impl Game {
    fn of(texts: [&'static str; 4]) -> Self {
        Game { symbols: Symbols::parse(SYMBOLS).unwrap(), edition: Edition::ONE, texts }
    }

    /// What it comes to by both variants; number and index, and count 0 but where it is spent.
    fn play(&self, turns: u32, allowance: u32) -> (u32, u32) {
        let [loader, sender, goal, start] = self.texts;
        let [loader, sender] =
            [loader, sender].map(|text| sheets(&self.symbols, self.edition, text));
        let goal = self.symbols.pattern(goal).unwrap();
        let start = self.symbols.term(start).unwrap();
        // The sheets tell the edition.
        let language = self.symbols.language(Edition(3));
        let [one, two] = [Reference, Shortcuts].map(|library| {
            library.play(turns, language, side(&loader), side(&sender), &goal, &start, allowance)
        });
        assert_eq!(one, two);
        let spent = one.word() == Some(Word::Spent);
        assert_eq!(one.count, if spent { allowance.into() } else { 0 });
        (one.number, one.index)
    }
}

/// What a game of texts comes to.
fn play(turns: u32, texts: [&'static str; 4]) -> (u32, u32) {
    Game::of(texts).play(turns, 1_000)
}

const OPEN: &str = "gates(@0, shut, @1) => gates(@0, open, @1)";
const SHUT: &str = "gates(@0, open, @1) => gates(@0, shut, @1)";
const ALL_OPEN: &str = "!gates(@0, !open, @1)";
const NONE: (u32, u32) = (10, 0);

#[test]
fn the_start_the_loaders_move_and_the_senders() {
    for turns in 0..=6 {
        assert_eq!(play(turns, [OPEN, SHUT, ALL_OPEN, "gates(open)"]), (0, NO_MOVE));
        let own = play(turns, [OPEN, SHUT, ALL_OPEN, "gates(shut)"]);
        assert_eq!(own, if turns < 1 { NONE } else { (0, 0) });
        let others = play(turns, [SHUT, OPEN, ALL_OPEN, "gates(shut)"]);
        assert_eq!(others, if turns < 2 { NONE } else { (0, PASS) });
        let after_own = play(turns, ["gates(@0) => gates(@0, shut)", OPEN, ALL_OPEN, "gates()"]);
        assert_eq!(after_own, (0, NO_MOVE));
        let after_both = play(turns, ["open => shut", "shut => held", "held", "open"]);
        assert_eq!(after_both, if turns < 2 { NONE } else { (0, 0) });
    }
}

#[test]
fn passes_are_turns() {
    // The sender has no move: every second turn is a pass.
    for (elements, least) in [("shut", 1), ("shut, shut", 3), ("shut, shut, shut", 5)] {
        let start: &'static str = format!("gates({elements})").leak();
        for turns in 0..=6 {
            let found = play(turns, [OPEN, "", ALL_OPEN, start]);
            assert_eq!(found, if turns < least { NONE } else { (0, 0) }, "{start}, {turns}");
        }
    }
    for turns in 0..=6 {
        assert_eq!(play(turns, ["", "", "held", "open"]), NONE);
        assert_eq!(play(turns, ["", "", "open", "open"]), (0, NO_MOVE));
    }
}

#[test]
fn every_move_of_the_sender_counts() {
    // One of two moves hinders it, in either order.
    let both = ["open => shut; open => held", "open => held; open => shut"];
    for sender in both {
        assert_eq!(play(2, ["gate(?0) => ?0", sender, "held", "gate(open)"]), NONE);
        let either = play(2, ["gate(?0) => ?0", sender, "!open", "gate(open)"]);
        assert_eq!(either, (0, NO_MOVE));
    }
    // The loader has what leads there from each.
    let texts =
        ["gate(?0) => ?0; shut => held", "open => shut; open => held", "held", "gate(open)"];
    assert_eq!(play(2, texts), NONE);
    assert_eq!(play(3, texts), (0, 0));
    // No move is better than one: who has a move does not pass.
    assert_eq!(play(2, ["", "open => shut; held => open", "open", "held"]), (0, PASS));
    assert_eq!(play(2, ["held => shut", "open => shut; held => open", "open", "held"]), NONE);
}

#[test]
fn the_lowest_rule_that_still_forces_it() {
    let loader = "open => shut; shut => open; open => gate(open); open => held; open => held";
    assert_eq!(play(1, [loader, "", "held", "open"]), (0, 3));
    assert_eq!(play(1, [loader, "", "gate(?0)", "open"]), (0, 2));
    assert_eq!(play(1, [loader, "", "shut", "open"]), (0, 0));
    // With more turns a lower one does: shut, a pass, open, a pass, held.
    assert_eq!(play(4, [loader, "", "held", "open"]), (0, 3));
    assert_eq!(play(5, [loader, "", "held", "open"]), (0, 0));
}

#[test]
fn moves_are_by_the_first_answer_and_not_outgrown() {
    let first = [OPEN, "", "gates(open, shut)", "gates(shut, shut)"];
    assert_eq!(play(1, first), (0, 0));
    assert_eq!(play(1, [OPEN, "", "gates(shut, open)", "gates(shut, shut)"]), NONE);
    // A row of 200 put in twice is outgrown, so the loader has no move and passes.
    let row: &'static str = format!("gates({})", vec!["open"; 200].join(", ")).leak();
    let doubled = "gates(@0) => gates(@0, @0)";
    assert_eq!(play(2, [doubled, "?0 => held", "held", row]), (0, PASS));
    assert_eq!(play(1, ["gates(@0) => gates(@0, @0); ?0 => held", "", "held", row]), (0, 1));
    assert_eq!(play(2, ["", doubled, "held", row]), NONE);
}

#[test]
fn allowances() {
    // The goal counts 1 on gates(shut, shut), the loader's rule 5, and 6 on what comes later.
    let game = Game::of([OPEN, "", "row(?0, ?1)", "gates(shut, shut)"]);
    for (turns, least) in [(0, 1), (1, 5), (2, 5), (3, 6), (4, 6), (5, 6), (6, 6)] {
        assert_eq!(game.play(turns, least), NONE, "{turns}");
        assert_eq!(game.play(turns, u32::MAX), NONE);
        assert_eq!(game.play(turns, least - 1), (11, 0), "{turns}");
        assert_eq!(game.play(turns, 0), (11, 0));
    }
    // What comes after the move that settles it is not begun: here a dear rule.
    let dear = "held => shut; gates(@0, @1, held) => held";
    let state = "gates(open, open, open, open)";
    assert_eq!(Game::of([dear, "", "!gates(@0)", state]).play(1, 12), (11, 0));
    let cheap = "gates(?0, @0) => held; gates(@0, @1, held) => held";
    let game = Game::of([cheap, "", "!gates(@0)", state]);
    assert_eq!(game.play(1, 12), (0, 0));
    // Nor any move where the goal holds at the start.
    assert_eq!(Game::of([dear, dear, "gates(?0, @0)", state]).play(6, 7), (0, NO_MOVE));
    // A spent rule is not passed over, though the next one would do.
    let late = "gates(@0, @1, held) => held; gates(?0, @0) => held";
    assert_eq!(Game::of([late, "", "!gates(@0)", state]).play(1, 12), (11, 0));
    assert_eq!(Game::of([late, "", "!gates(@0)", state]).play(1, 100), (0, 1));
}

#[test]
fn editions_and_classes() {
    let two = |texts| Game { edition: Edition::TWO, ..Game::of(texts) };
    let texts = ["row(?0, ?1) => gates(?0, ?1)", "", "gates(open, held)", "row(gates(open), held)"];
    assert_eq!(two(texts).play(1, 99), (0, 0));
    assert_eq!(Game::of(texts).play(1, 99), NONE);
    let texts = ["held => doors(stopped)", "", "gates(held)", "stopped"];
    assert_eq!(Game::of(texts).play(1, 99), (0, 0));
    let simple = Game {
        symbols: Symbols::parse(&SYMBOLS.replace("stopped=held doors=gates", "stopped doors/*"))
            .unwrap(),
        ..Game::of(texts)
    };
    assert_eq!(simple.play(1, 99), NONE);
}

/// open, gate (1), gates (list), a list of the same class
const TABLE: [u8; 4] = [0, 1, LIST, LIST];
const CLASSES: [u8; 4] = [0, 1, 2, 2];

/// Number and index of a refusal of these six inputs.
fn refused(turns: u32, language: Language, inputs: [&[u8]; 6]) -> (Word, u32) {
    let [a, b, c, d, goal, record] = inputs;
    let (loader, sender) = (Side { rules: a, templates: b }, Side { rules: c, templates: d });
    let outcome = Reference.play(turns, language, loader, sender, goal, record, 0);
    assert_eq!(outcome.count, 0);
    (outcome.word().unwrap(), outcome.index)
}

#[test]
fn refusals_in_their_order() {
    let told = Language::simple(&TABLE).with_classes(&CLASSES);
    let sheet = |entries: &[&[u8]]| {
        let entries: Vec<Vec<u8>> = entries.iter().map(|entry| entry.to_vec()).collect();
        sheet_of(Edition::TWO, &entries)
    };
    let (good, bad) = (sheet(&[&[200], &[0]]), vec![9]);
    let all = |place: usize, input: &[u8]| {
        // What comes before is accepted, what comes after is at fault too.
        let mut inputs = [&good[..], &good, &good, &good, &[0], &[0]];
        inputs[place] = input;
        let later: &[u8] = &bad;
        inputs[place + 1..].fill(later);
        refused(6, told, inputs)
    };
    assert_eq!(refused(7, Language::simple(&[9]), [&[]; 6]), (Word::Turns, 0));
    assert_eq!(refused(u32::MAX, Language::simple(&[9]), [&[]; 6]), (Word::Turns, 0));
    assert_eq!(refused(6, Language::simple(&[9]).with_classes(&[]), [&[]; 6]), (Word::Table, 0));
    assert_eq!(refused(6, Language::simple(&TABLE).with_classes(&[0]), [&[]; 6]), (Word::Class, 0));
    let many = sheet(&vec![&[0][..]; 65]);
    let faults: [(&[u8], Word); 8] = [
        (&[], Word::Short),
        (&[0, 0], Word::Spare),
        (&[249], Word::Code),
        (&[1; 33], Word::Deep),
        (&[0; 257], Word::Long),
        (&[1, 232], Word::Stray),
        (&[2, 1, 3, 0], Word::Unspliced),
        (&[9], Word::Code),
    ];
    for place in 0..4 {
        assert_eq!(all(place, &vec![0; 32_769]), (Word::Long, 0));
        assert_eq!(all(place, &[]), (Word::Directory, 0));
        assert_eq!(all(place, &[0, 128, 0]), (Word::Directory, 0));
        let number = if place % 2 == 0 { Word::Long } else { Word::Directory };
        assert_eq!(all(place, &many), (number, 0));
        for (entry, word) in &faults[1..] {
            assert_eq!(all(place, &sheet(&[&[0], entry])), (*word, 1), "{place}, {entry:?}");
            assert_eq!(all(place, &sheet(&[entry, &[249]])), (*word, 0), "{place}, {entry:?}");
        }
    }
    for place in [1, 3] {
        // Unlike numbers, also of an empty sheet, before the entries' own faults.
        for other in [sheet(&[]), sheet(&[&[249]]), sheet(&[&[0], &[0], &[0]])] {
            assert_eq!(all(place, &other), (Word::Directory, 0));
        }
        // An entry's own faults, then 18, entry by entry.
        assert_eq!(all(place, &sheet(&[&[248, 0], &[249]])), (Word::Loose, 0));
        assert_eq!(all(place, &sheet(&[&[201], &[249]])), (Word::Loose, 0));
        assert_eq!(all(place, &sheet(&[&[200], &[200]])), (Word::Loose, 1));
        assert_eq!(all(place, &sheet(&[&[248, 249], &[0]])), (Word::Code, 0));
    }
    for place in 1..4 {
        let one = sheet_of(Edition::ONE, &[vec![200], vec![0]]);
        assert_eq!(all(place, &one), (Word::Directory, 0));
        let empty = sheet_of(Edition::ONE, &[]);
        assert_eq!(all(place, &empty), (Word::Directory, 0));
    }
    for (entry, word) in faults {
        assert_eq!(all(4, entry), (word, 0), "{entry:?}");
    }
    for (entry, word) in
        [(&[][..], Word::Short), (&[200], Word::Code), (&[2, 1, 3, 0], Word::Unspliced)]
    {
        assert_eq!(refused(0, told, [&good, &good, &good, &good, &[0], entry]), (word, 0));
    }
}

#[test]
fn sixty_four_moves() {
    let moves = vec!["held => open"; 63].join("; ") + "; open => shut";
    let moves: &'static str = moves.leak();
    assert_eq!(play(1, [moves, moves, "shut", "open"]), (0, 63));
    let shown = Outcome::counted(Word::Bound, 63, 0);
    assert_eq!(shown.opening(), Some(interface::Opening::Rule(63)));
}
