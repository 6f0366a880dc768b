//! The workloads of games.

use crate::workloads::{symbols, Workload};
use interface::{sheet_of, Edition, Language, Library, Opening, Outcome, Side, Word};

pub fn all() -> Vec<Workload> {
    let turns = [2, 4, 6];
    let mut all = Vec::new();
    all.extend(turns.map(|n| Game::hindered(n).play("game, three moves each, none")));
    all.extend(turns.map(|n| Game::forced(n).play("game, two moves each, forced")));
    all
}

/// A game of n turns, and what it comes to.
struct Game {
    n: u32,
    table: Vec<u8>,
    /// The loader's sheets and the sender's, of rules and of templates.
    sheets: [[Vec<u8>; 2]; 2],
    goal: Vec<u8>,
    start: Vec<u8>,
    shown: Outcome,
}

impl Game {
    /// Every way to play is gone through: no move brings about the goal.
    fn hindered(n: u32) -> Self {
        let loader = "gates(@0, shut, @1) => gates(@0, open, @1)\n\
                      gates(@0, held, @1) => gates(@0, open, @1)\n\
                      gates(?0, @0) => gates(@0, ?0)";
        let sender = "gates(@0, open, @1) => gates(@0, shut, @1)\n\
                      gates(@0, open, @1) => gates(@0, held, @1)\n\
                      gates(?0, @0, ?1) => gates(?1, @0, ?0)";
        let none = Outcome::counted(Word::None, 0, 0);
        Game::of(n, [loader, sender], "row(?0, ?1)", &row("shut, held, open", 10), none)
    }

    /// The loader opens a gate at each turn of his, the sender only turns the row: after the last
    /// turn none is left that is not open.
    fn forced(n: u32) -> Self {
        let loader = "gates(?0, @0) => gates(@0, ?0)\n\
                      gates(@0, shut, @1) => gates(@0, open, @1)";
        let sender = "gates(?0, @0) => gates(@0, ?0)\n\
                      gates(@0, ?0) => gates(?0, @0)";
        let shut = vec!["shut"; n as usize / 2].join(", ");
        let start = row(&format!("{shut}, open"), 10);
        let forced = Outcome::counted(Word::Bound, Opening::Rule(1).index(), 0);
        Game::of(n, [loader, sender], "!gates(@0, shut, @1)", &start, forced)
    }

    fn of(n: u32, sides: [&str; 2], goal: &str, start: &str, shown: Outcome) -> Self {
        let symbols = symbols();
        let sheets = sides.map(|text| {
            let moves: Vec<[Vec<u8>; 2]> = text.lines().map(|line| read(&symbols, line)).collect();
            [0, 1].map(|part| {
                let entries: Vec<Vec<u8>> = moves.iter().map(|one| one[part].clone()).collect();
                sheet_of(Edition::ONE, &entries)
            })
        });
        let goal = symbols.pattern(goal).expect("the goal is right");
        let start = symbols.term(start).expect("the start is right");
        Game { n, table: symbols.table().to_vec(), sheets, goal, start, shown }
    }

    fn play(self, name: &'static str) -> Workload {
        let n = self.n as usize;
        let run = Box::new(move |library: &dyn Library| {
            let Game { n, table, sheets, goal, start, shown } = &self;
            let [loader, sender] =
                sheets.each_ref().map(|[rules, templates]| Side { rules, templates });
            let language = Language::simple(table);
            let outcome = library.play(*n, language, loader, sender, goal, start, u32::MAX);
            assert_eq!(outcome, *shown);
        });
        Workload { name, n, call: "qonveshir_play", unit: "call", units: 1, run }
    }
}

/// A row of so many gates, the first of which are given; the others are open.
fn row(first: &str, elements: usize) -> String {
    let more = elements - first.split(", ").count();
    format!("gates({first}{})", ", open".repeat(more))
}

/// The rule and the template of a move.
fn read(symbols: &notation::Symbols, text: &str) -> [Vec<u8>; 2] {
    let parts = symbols.parsed_move(text).expect("the move is right");
    [parts.rule.bytes, parts.template.bytes]
}
