//! Texts of rules or states.

use crate::symbols::is_name;

/// A rule or state of a text.
#[derive(Clone, Debug, PartialEq, Eq)]
pub struct Entry<'a> {
    /// Its line, from 1 on.
    pub line: usize,
    /// The name before its colon, if it has one.
    pub name: Option<&'a str>,
    /// The rule or state, with blanks in place of what stands before it, so that its columns are
    /// those of the line.
    pub body: String,
}

/// The rules or states of a text, one in each line: `same: row(?0, ?0)` or `row(?0, ?0)`. A comment
/// goes from `#` to the end of the line; lines with nothing else are passed over.
pub fn entries(text: &str) -> impl Iterator<Item = Entry<'_>> {
    let lines = text.lines().map(|line| line.split('#').next().unwrap_or("")).enumerate();
    lines.filter(|(_, line)| !line.trim().is_empty()).map(|(i, line)| {
        let (name, body) = named(line);
        let blanks = line[..line.len() - body.len()].chars().count();
        Entry { line: i + 1, name, body: " ".repeat(blanks) + body }
    })
}

/// The name that a line starts with, if any, and the rest.
fn named(line: &str) -> (Option<&str>, &str) {
    match line.split_once(':') {
        Some((name, body)) if is_name(name.trim()) => (Some(name.trim()), body),
        _ => (None, line),
    }
}
