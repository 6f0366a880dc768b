//! Text to bytes.

use crate::symbols::{continues_name, starts_name};
use crate::{Error, Symbols};
use interface::*;

/// The bytes of a term or pattern, and where each of its nodes stands in its text.
#[derive(Clone, Debug, PartialEq, Eq)]
pub struct Parsed<'a> {
    pub bytes: Vec<u8>,
    text: &'a str,
    /// For each node in order the offset of its first byte, and where its text starts.
    nodes: Vec<(usize, usize)>,
}

impl Parsed<'_> {
    /// An error at the node that the byte at an offset belongs to.
    pub fn error(&self, at: usize, message: impl Into<String>) -> Error {
        let later = self.nodes.partition_point(|(start, _)| *start <= at);
        let (_, start) = self.nodes[..later].last().copied().unwrap_or_default();
        Error::in_text(self.text, start, message)
    }
}

pub(crate) struct Parser<'a> {
    symbols: &'a Symbols,
    text: &'a str,
    at: usize,
    /// Whether names, run names and complements are allowed.
    pattern: bool,
    bytes: Vec<u8>,
    nodes: Vec<(usize, usize)>,
}

impl<'a> Parser<'a> {
    pub fn new(symbols: &'a Symbols, text: &'a str, pattern: bool) -> Self {
        Parser { symbols, text, at: 0, pattern, bytes: Vec::new(), nodes: Vec::new() }
    }

    /// The same from an offset of the text on.
    pub fn from(self, at: usize) -> Self {
        Parser { at, ..self }
    }

    /// Reads the rest of the text as one term or pattern.
    pub fn whole(mut self) -> Result<Parsed<'a>, Error> {
        self.node(1, false)?;
        self.blanks();
        if let Some(c) = self.peek() {
            return self.error(self.at, format!("expected the end, found {c:?}"));
        }
        let (kind, limit) =
            if self.pattern { ("pattern", PATTERN_LIMIT) } else { ("record", RECORD_LIMIT) };
        if self.bytes.len() > limit {
            let (size, start) = (self.bytes.len(), self.nodes[0].1);
            return self
                .error(start, format!("the {kind} takes {size} bytes, its limit is {limit}"));
        }
        Ok(Parsed { bytes: self.bytes, text: self.text, nodes: self.nodes })
    }

    fn node(&mut self, nesting: usize, mut in_list: bool) -> Result<(), Error> {
        self.blanks();
        if nesting > NESTING_LIMIT {
            return self.error(self.at, format!("nesting over {NESTING_LIMIT}"));
        }
        // A complement's child has the complement's own nesting.
        while self.pattern && self.peek() == Some('!') {
            self.starts();
            self.at += 1;
            self.bytes.push(COMPLEMENT);
            in_list = false;
            self.blanks();
        }
        self.starts();
        match self.peek() {
            Some(c) if starts_name(c) => self.symbol(nesting),
            Some('?') if self.pattern => self.numbered(FIRST_NAME, NAMES),
            Some('@') if self.pattern && !in_list => {
                self.error(self.at, "a run name may only be a direct child of a list")
            }
            Some('@') if self.pattern => self.numbered(FIRST_RUN, RUNS),
            found => self.unexpected(found),
        }
    }

    /// A node starts here.
    fn starts(&mut self) {
        self.nodes.push((self.bytes.len(), self.at));
    }

    fn unexpected(&self, found: Option<char>) -> Result<(), Error> {
        let expected = if self.pattern { "a symbol, ?name, @run or !" } else { "a symbol" };
        let found = found.map_or("the end".into(), |c| format!("{c:?}"));
        self.error(self.at, format!("expected {expected}, found {found}"))
    }

    /// A name or a run name: its mark and its number.
    fn numbered(&mut self, first: u8, limit: usize) -> Result<(), Error> {
        let start = self.at;
        self.at += 1;
        let digits = self.take(|c| c.is_ascii_digit());
        match digits.parse::<usize>() {
            Ok(number) if number < limit => {
                self.bytes.push(first + number as u8);
                Ok(())
            }
            _ => {
                let mark = &self.text[start..start + 1];
                self.error(start, format!("expected {mark}0 to {mark}{}", limit - 1))
            }
        }
    }

    fn symbol(&mut self, nesting: usize) -> Result<(), Error> {
        let start = self.at;
        let name = self.take(continues_name);
        let Some(code) = self.symbols.code(name) else {
            return self.error(start, format!("{name} is not in the table"));
        };
        self.bytes.push(code);
        match self.symbols.table()[usize::from(code)] {
            0 => Ok(()),
            LIST => self.list(name, nesting),
            children => {
                let found = self.children(name, nesting, false)?;
                if found == usize::from(children) {
                    return Ok(());
                }
                let plural = if children == 1 { "child" } else { "children" };
                let message = format!("{name} takes {children} {plural}, this is {found}");
                self.error(self.at - 1, message)
            }
        }
    }

    fn list(&mut self, name: &str, nesting: usize) -> Result<(), Error> {
        let (start, place) = (self.at, self.bytes.len());
        self.bytes.push(0);
        let found = self.children(name, nesting, true)?;
        let Ok(number) = u8::try_from(found) else {
            return self.error(start, format!("a list holds at most 255 children, not {found}"));
        };
        self.bytes[place] = number;
        Ok(())
    }

    /// Children in parentheses; gives their number.
    fn children(&mut self, name: &str, nesting: usize, in_list: bool) -> Result<usize, Error> {
        self.blanks();
        if !self.eat('(') {
            return self.error(self.at, format!("expected ( after {name}"));
        }
        self.blanks();
        if self.eat(')') {
            return Ok(0);
        }
        for number in 1.. {
            self.node(nesting + 1, in_list)?;
            self.blanks();
            if self.eat(')') {
                return Ok(number);
            }
            if !self.eat(',') {
                return self.error(self.at, format!("expected , or ) within {name}"));
            }
        }
        unreachable!("a text is finite")
    }

    fn peek(&self) -> Option<char> {
        self.text[self.at..].chars().next()
    }

    fn eat(&mut self, c: char) -> bool {
        let found = self.peek() == Some(c);
        self.at += if found { c.len_utf8() } else { 0 };
        found
    }

    fn blanks(&mut self) {
        self.take(char::is_whitespace);
    }

    fn take(&mut self, among: impl Fn(char) -> bool) -> &'a str {
        let rest = &self.text[self.at..];
        let taken = &rest[..rest.find(|c| !among(c)).unwrap_or(rest.len())];
        self.at += taken.len();
        taken
    }

    fn error<T>(&self, at: usize, message: impl Into<String>) -> Result<T, Error> {
        Err(Error::in_text(self.text, at, message))
    }
}
