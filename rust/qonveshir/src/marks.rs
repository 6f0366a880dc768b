//! Marks below the parts of a text.

use crate::Look;
use std::ops::Range;

/// A part of a text, and what stands before its marks.
pub struct Mark {
    pub label: String,
    pub part: Range<usize>,
}

/// Fewest characters of the text in a line.
const NARROWEST: usize = 20;
/// Marks a part, and the place of an empty one.
const MARKS: (&str, &str) = ("^", "|");

/// The text in lines of at most the look's width, each with the marks of its parts below; lines
/// without marks are left out if there are several.
pub fn marked(title: &str, text: &str, marks: &[Mark], look: Look) -> String {
    let labels = marks.iter().map(|mark| mark.label.len());
    let margin = labels.chain([title.len()]).max().unwrap_or(0) + 2;
    let rows = rows(text, look.width.saturating_sub(margin).max(NARROWEST));
    let (mut shown, mut left_out) = (String::new(), false);
    for (i, row) in rows.iter().enumerate() {
        let below = below(row, marks, margin, look);
        if below.is_empty() && rows.len() > 1 {
            shown += if left_out { "" } else { "...\n" };
            left_out = true;
            continue;
        }
        let title = if i == 0 { title } else { "" };
        shown += format!("{title:margin$}{}", &text[row.clone()]).trim_end();
        shown = shown + "\n" + &below;
        left_out = false;
    }
    shown
}

/// The lines of marks below a row of the text.
fn below(row: &Range<usize>, marks: &[Mark], margin: usize, look: Look) -> String {
    let mut lines = String::new();
    for Mark { label, part } in marks {
        let stands = row.start <= part.start && part.start < row.end;
        let (start, end) = (part.start.max(row.start), part.end.min(row.end));
        if start < end || stands {
            let mark = if part.is_empty() { MARKS.1.into() } else { MARKS.0.repeat(end - start) };
            let line = format!("{label:margin$}{}{mark}", " ".repeat(start - row.start));
            lines = lines + &coloured(&line, CYAN, look) + "\n";
        }
    }
    lines
}

/// The rows of a text, each broken after its last blank, or where it is full.
fn rows(text: &str, width: usize) -> Vec<Range<usize>> {
    let (mut rows, mut start) = (Vec::new(), 0);
    while text.len() - start > width {
        let full = &text[start..start + width];
        let length = full.rfind(' ').map_or(width, |blank| blank + 1);
        rows.push(start..start + length);
        start += length;
    }
    rows.push(start..text.len());
    rows
}

pub const CYAN: u8 = 36;
pub const GREEN: u8 = 32;
pub const RED: u8 = 31;

/// A text in a colour of the terminal, where the look has colours.
pub fn coloured(text: &str, colour: u8, look: Look) -> String {
    match look.colour {
        true => format!("\x1b[{colour}m{text}\x1b[0m"),
        false => text.into(),
    }
}
