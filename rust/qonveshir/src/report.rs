//! `report`.

use crate::command::{wrong_call, Command};
use crate::folder::{Folder, Names};
use crate::matching::ALLOWANCE;
use crate::progress::Progress;
use crate::{trouble, Console, Reply, Stop, ENGINE};
use interface::{Language, Word, ABSENT, ANSWER, EDITION_MARK};

pub const REPORT: Command = Command {
    name: "report",
    usage: &[(
        "report [--names] FOLDER",
        "print the report on table.bin, rules.bin and states.bin of a folder, a line for each state; \
         with names in place of indices by symbols.txt, rules.txt and, if it is there, states.txt",
    )],
    help: "\
After the header, a line has the state, the first rule that is bound or spent (-
for none), the word bound, none or spent, and the sum of the counts of the rules
tried. A rule may count to 100,000 on a state; past that it is spent. A refusal
is the whole output; `qonveshir check FOLDER` explains it.

A line `all-open: gates(@0)` of a text has the name all-open; a rule or state
without a name is shown in the notation, without blanks. The files must be what
the texts are packed to.
",
    run: |arguments, console: &mut Console| match arguments {
        ["--names", folder] => report(&Folder::read(folder), true, console),
        [folder] => report(&Folder::read(folder), false, console),
        _ => wrong_call("report"),
    },
};

/// The header of the report.
const HEADER: &str = "state rule word count\n";

fn report(folder: &Folder, with_names: bool, console: &mut Console) -> Reply {
    if let Some(refusal) = folder.refusal() {
        return Err(Stop::No(refusal));
    }
    let names = with_names.then(|| folder.names()).transpose()?;
    let Some([table, rules, states]) = folder.bytes() else { return Ok(String::new()) };
    let [number, rule_number] = [states, rules].map(entries);
    // On a terminal the lines themselves say how far the report is.
    let terminal = console.look.marks;
    let progress =
        if terminal { None } else { Progress::of_report(number, rule_number, ALLOWANCE) };
    let mut text = HEADER.to_string();
    for index in 0..number {
        text += &line(table, rules, states, index, names.as_ref())?;
        progress.iter().for_each(Progress::step);
        if terminal || text.len() > PIECE {
            if !console.print(&text).or_else(trouble)? {
                return Ok(String::new());
            }
            text.clear();
        }
    }
    Ok(text)
}

/// The number of entries of an accepted sheet.
fn entries(sheet: &[u8]) -> usize {
    (u16::from_le_bytes([sheet[0], sheet[1]]) % EDITION_MARK).into()
}

/// Bytes of the text that are printed at once.
const PIECE: usize = 4_096;

/// The line of one state.
fn line(table: &[u8], rules: &[u8], states: &[u8], index: usize, names: Option<&Names>) -> Reply {
    let record = &states[ENGINE.0.entry(states, index as u32).range()];
    let language = Language::simple(table);
    let outcome = ENGINE.0.match_rules(language, rules, record, ALLOWANCE, &mut [ABSENT; ANSWER]);
    let state = match names {
        Some(names) => names.state(index, record).or_else(trouble)?,
        None => index.to_string(),
    };
    let rule = match (outcome.word(), names) {
        (Some(Word::None), _) => "-".into(),
        (_, None) => outcome.index.to_string(),
        (_, Some(names)) => {
            let pattern = &rules[ENGINE.0.entry(rules, outcome.index).range()];
            names.rule(outcome.index as usize, pattern).or_else(trouble)?
        }
    };
    let word = outcome.word().map_or("?", Word::text);
    Ok(format!("{state} {rule} {word} {}\n", outcome.count))
}
