//! Draws the picture of the README: a rule, a state, and what the names stand for by the library's
//! answer.
//!
//! ```text
//! cargo run --example picture > ../docs/match.svg
//! ```

use command_line::ENGINE;
use interface::{Answer, Language, FIRST_NAME, FIRST_RUN};
use notation::{Shown, Symbols};
use std::ops::Range;

/// Prints the picture.
#[allow(dead_code)]
fn main() {
    print!("{}", svg());
}

const SYMBOLS: &str = "open shut held gate/1 gates/*";
const RULE: &str = "gates(@0, ?0, !?0, @1)";
const STATE: &str = "gates(open, open, gate(shut), held)";
/// The names of the rule with their codes, and the colour of each.
const NAMED: [(&str, u8, &str); 3] =
    [("@0", FIRST_RUN, "#1b6ca8"), ("?0", FIRST_NAME, "#c0392b"), ("@1", FIRST_RUN + 1, "#2e8b57")];

/// Width and height of a character, and of the whole.
const CHARACTER: (f64, f64) = (12.0, 20.0);
const SIZE: (f64, f64) = (560.0, 208.0);
/// Where the texts start, and the lines that rule, state and answer stand on.
const LEFT: f64 = 84.0;
const LINES: [f64; 3] = [44.0, 134.0, 186.0];

/// The picture.
pub fn svg() -> String {
    let symbols = Symbols::parse(SYMBOLS).expect("symbols");
    let (pattern, record) =
        (symbols.pattern(RULE).expect("a rule"), symbols.term(STATE).expect("a state"));
    let language = Language::simple(symbols.table());
    let (outcome, answer) = ENGINE.0.find(language, &pattern, &record, 1_000);
    let rule = symbols.shown_pattern(&pattern).expect("a pattern");
    let state = symbols.shown_term(&record).expect("a record");
    let mut drawn = format!(
        "<svg xmlns=\"http://www.w3.org/2000/svg\" width=\"{0}\" height=\"{1}\" \
         viewBox=\"0 0 {0} {1}\" font-family=\"monospace\" font-size=\"20\">\n\
         <rect width=\"100%\" height=\"100%\" fill=\"white\"/>\n",
        SIZE.0, SIZE.1
    );
    let mut found = Vec::new();
    for (name, code, colour) in NAMED {
        let part = part(&answer, code).expect("a free name");
        drawn += &link(&rule, &state, place(&pattern, code), part.clone(), colour);
        found.push(format!("{name} = {}", symbols.show_run(&record[part]).expect("a part")));
    }
    drawn += &text(0, "rule", &rule.text);
    drawn += &text(1, "state", &state.text);
    let word = outcome.word().map_or("?", |word| word.text());
    drawn += &text(2, word, &found.join("   "));
    drawn + "</svg>\n"
}

/// The part of a name or run name.
fn part(answer: &Answer, code: u8) -> Option<Range<usize>> {
    match code {
        FIRST_RUN.. => answer.run(usize::from(code - FIRST_RUN)),
        _ => answer.name(usize::from(code - FIRST_NAME)),
    }
}

/// Where a name first stands in the rule.
fn place(pattern: &[u8], code: u8) -> Range<usize> {
    let at = pattern.iter().position(|&byte| byte == code).expect("a name of the rule");
    at..at + 1
}

/// A name of the rule, its part of the state, and a line from one to the other.
fn link(
    rule: &Shown,
    state: &Shown,
    name: Range<usize>,
    part: Range<usize>,
    colour: &str,
) -> String {
    let (name, part) = (rule.part(name), state.part(part));
    let middle = |part: &Range<usize>| LEFT + CHARACTER.0 * (part.start + part.end) as f64 / 2.0;
    let (from, to) = ((middle(&name), LINES[0] + 8.0), (middle(&part), LINES[1] - CHARACTER.1));
    let half = (from.1 + to.1) / 2.0;
    lit(0, &name, colour)
        + &lit(1, &part, colour)
        + &format!(
            "<path d=\"M{0:.1},{1:.1} C{0:.1},{2:.1} {3:.1},{2:.1} {3:.1},{4:.1}\" fill=\"none\" \
             stroke=\"{colour}\" stroke-width=\"2\"/>\n",
            from.0, from.1, half, to.0, to.1
        )
}

/// The ground of a part of a line's text.
fn lit(line: usize, part: &Range<usize>, colour: &str) -> String {
    format!(
        "<rect x=\"{:.1}\" y=\"{:.1}\" width=\"{:.1}\" height=\"28\" rx=\"5\" fill=\"{colour}\" \
         fill-opacity=\"0.22\"/>\n",
        LEFT + CHARACTER.0 * part.start as f64 - 2.0,
        LINES[line] - CHARACTER.1,
        CHARACTER.0 * part.len() as f64 + 4.0,
    )
}

/// A line: its title and its text, as wide as its characters say whatever the font is.
fn text(line: usize, title: &str, words: &str) -> String {
    let width = CHARACTER.0 * words.len() as f64;
    format!(
        "<text x=\"12\" y=\"{0}\" font-family=\"sans-serif\" font-size=\"16\" fill=\"#666\">{title}\
         </text>\n<text x=\"{LEFT}\" y=\"{0}\" textLength=\"{width}\" \
         lengthAdjust=\"spacingAndGlyphs\" xml:space=\"preserve\">{words}</text>\n",
        LINES[line]
    )
}
