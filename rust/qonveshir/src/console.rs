//! Where a command prints, and how that looks.

use crate::terminal;
use std::env;
use std::fmt::Display;
use std::io::{self, BufRead, ErrorKind, IsTerminal, Read, Write};

/// How answers are shown.
#[derive(Clone, Copy, Debug, PartialEq, Eq)]
pub struct Look {
    /// Whether parts are marked below their text.
    pub marks: bool,
    /// Whether words have colours.
    pub colour: bool,
    /// Characters in a line with marks.
    pub width: usize,
}

impl Look {
    /// Plain text, as for a pipe.
    pub const PLAIN: Look = Look { marks: false, colour: false, width: 80 };

    /// What standard output asks for: marks and colour on a terminal only, and no colour where the
    /// environment forbids it.
    pub fn of_output() -> Look {
        if !io::stdout().is_terminal() {
            return Look::PLAIN;
        }
        let dull = env::var_os("NO_COLOR").is_some_and(|value| !value.is_empty())
            || env::var_os("TERM").is_some_and(|value| value == "dumb");
        Look { marks: true, colour: !dull, width: terminal::width().unwrap_or(Look::PLAIN.width) }
    }
}

/// The streams of a command.
pub struct Console<'a> {
    out: &'a mut dyn Write,
    err: &'a mut dyn Write,
    input: Option<&'a mut dyn BufRead>,
    prompt: &'static str,
    pub look: Look,
}

/// Most bytes of a line that is read; one of a rule and a template has far fewer.
const LINE_LIMIT: u64 = 1 << 20;

impl<'a> Console<'a> {
    /// A console with nothing to read.
    pub fn new(out: &'a mut dyn Write, err: &'a mut dyn Write, look: Look) -> Self {
        Console { out, err, input: None, prompt: "", look }
    }

    /// The same with lines to read; each is asked for with the prompt.
    pub fn reading(self, input: &'a mut dyn BufRead, prompt: &'static str) -> Self {
        Console { input: Some(input), prompt, ..self }
    }

    /// The next line, without its end, or why it can't be read; nothing at the end of the input.
    pub fn line(&mut self) -> io::Result<Option<Result<String, String>>> {
        self.print(self.prompt)?;
        let (mut line, Some(input)) = (Vec::new(), &mut self.input) else { return Ok(None) };
        input.by_ref().take(LINE_LIMIT).read_until(b'\n', &mut line)?;
        let long = line.len() as u64 == LINE_LIMIT && line.last() != Some(&b'\n');
        let mut ended = !long;
        while !ended {
            let mut rest = Vec::new();
            input.by_ref().take(LINE_LIMIT).read_until(b'\n', &mut rest)?;
            ended = rest.last().is_none_or(|&last| last == b'\n');
        }
        if line.is_empty() {
            self.print(if self.prompt.is_empty() { "" } else { "\n" })?;
            return Ok(None);
        }
        let text = String::from_utf8(line).map_err(|_| "not text in UTF-8".to_string());
        Ok(Some(match long {
            true => Err(format!("over {LINE_LIMIT} bytes")),
            false => text.map(|text| text.trim_end_matches(['\n', '\r']).into()),
        }))
    }

    /// Prints to standard output, and says whether that is read: a reader that stops early is no
    /// trouble.
    pub fn print(&mut self, text: &str) -> io::Result<bool> {
        match self.out.write_all(text.as_bytes()).and_then(|()| self.out.flush()) {
            Err(error) if error.kind() == ErrorKind::BrokenPipe => Ok(false),
            written => written.map(|()| true),
        }
    }

    /// Tells of trouble on standard error, and gives the exit status. If nobody can be told, the
    /// status says so all the same.
    pub fn troubled(&mut self, error: impl Display) -> u8 {
        let _ = writeln!(self.err, "qonveshir: {error}");
        2
    }
}
