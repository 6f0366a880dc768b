//! Moves: a rule and a template.

use crate::{parse::Parser, Error, Parsed, Symbols};

/// What stands between the rule and the template of a move.
pub const ARROW: &str = "=>";

/// The rule and the template of a move, whose places are those of the whole text.
#[derive(Clone, Debug, PartialEq, Eq)]
pub struct ParsedMove<'a> {
    pub rule: Parsed<'a>,
    pub template: Parsed<'a>,
}

impl Symbols {
    /// Reads a move, `RULE => TEMPLATE`, and tells where each node stands. Whether the template's
    /// names are free in the rule is not asked.
    pub fn parsed_move<'a>(&'a self, text: &'a str) -> Result<ParsedMove<'a>, Error> {
        let Some(arrow) = text.find(ARROW) else {
            let end = text.trim_end().len();
            return Err(Error::in_text(text, end, format!("expected {ARROW} and a template")));
        };
        let rule = Parser::new(self, &text[..arrow], true).whole()?;
        let template = Parser::new(self, text, true).from(arrow + ARROW.len()).whole()?;
        Ok(ParsedMove { rule, template })
    }

    /// Writes a move.
    pub fn show_move(&self, rule: &[u8], template: &[u8]) -> Result<String, Error> {
        Ok(format!("{} {ARROW} {}", self.show_pattern(rule)?, self.show_pattern(template)?))
    }
}
