//! The chain of theorems from the meaning of a rule to the call in C.

use crate::svg;

/// What stands in the chain: its words, and the definition or function that it is.
pub struct Link {
    pub words: &'static str,
    pub name: &'static str,
    /// The theorem or contract that leads to the next.
    pub theorem: &'static str,
}

const fn link(words: &'static str, name: &'static str, theorem: &'static str) -> Link {
    Link { words, name, theorem }
}

pub const CHAIN: [Link; 6] = [
    link("when a pattern holds", "Satisfies", "search_decides"),
    link("the counted search on trees", "answer", "linked"),
    link("the search on bytes", "search_of", "search"),
    link("its code, on accepted bytes", "match_checked", "match_one"),
    link("the call, on all bytes", "answer_of", "qonveshir_match"),
    link("the call in C", "answer_shown", ""),
];

const BOX: (f64, f64) = (320.0, 28.0);
const STEP: f64 = 62.0;

/// The chain's shapes, from a place down.
pub fn shapes((left, top): (f64, f64)) -> String {
    let middle = left + BOX.0 / 2.0;
    let mut shapes = String::new();
    for (i, link) in CHAIN.iter().enumerate() {
        let y = top + i as f64 * STEP;
        let words = format!("{}: {}", link.words, link.name);
        shapes += &svg::named((middle, y), BOX, "#f3eee2", &words);
        if !link.theorem.is_empty() {
            let (from, to) = (y + BOX.1 / 2.0, y + STEP - BOX.1 / 2.0);
            shapes += &svg::arrow((middle, from), (middle, to), "#456");
            shapes += &svg::text((middle + 10.0, (from + to) / 2.0 + 4.0), "start", link.theorem);
        }
    }
    shapes
}

/// How much room the chain takes.
pub fn size() -> (f64, f64) {
    (BOX.0 + 40.0, CHAIN.len() as f64 * STEP)
}
