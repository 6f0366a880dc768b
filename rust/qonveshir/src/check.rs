//! `check`.

use crate::command::{wrong_call, Command};
use crate::explain;
use crate::folder::{Folder, FILES};
use crate::sheets::parts;
use crate::{editions, Console, Reply, Stop};
use interface::{edition_of, Language, Word};

pub const CHECK: Command = Command {
    name: "check",
    usage: &[(
        "check FOLDER",
        "say of each of a report's three files whether it is accepted, or at which entry and byte \
         it is refused and what was expected there",
    )],
    help: "\
The files are table.bin, rules.bin and states.bin. The last line is the refusal
that the report prints, which is that of the first file at fault. Rules and
states are checked by the table, so they aren't where it is refused; and both
sheets must have the same edition.
",
    run: |arguments, _: &mut Console| match arguments {
        [folder] => check(&Folder::read(folder)),
        _ => wrong_call("check"),
    },
};

fn check(folder: &Folder) -> Reply {
    let mut text = String::new();
    for (file, (name, _)) in FILES.iter().enumerate() {
        let path = format!("{}/{name}", folder.path);
        let line = match folder.file(file) {
            _ if file > 0 && folder.verdict(0).number != 0 => {
                format!("{path}: not checked, since there is no accepted table")
            }
            Err(error) => {
                format!("{path}: {}\n{error}", explain::numbered(Word::Unread))
            }
            Ok(bytes) => one(folder, file, &path, bytes),
        };
        text += &(line + "\n");
    }
    match folder.refusal() {
        None => Ok(text),
        Some(line) => Err(Stop::No(format!("{text}the report: {line}"))),
    }
}

/// What is said of a file that can be read, where the table is accepted.
fn one(folder: &Folder, file: usize, path: &str, bytes: &[u8]) -> String {
    let (_, kind) = FILES[file];
    let [table, rules] = [0, 1].map(|file| folder.file(file).unwrap_or(&[]));
    let verdict = folder.verdict(file);
    if verdict.number != 0 {
        let checked = match file {
            2 if folder.verdict(1).number == 0 => {
                explain::check_states(bytes, table, edition_of(rules))
            }
            _ => explain::check(kind, bytes, Language::simple(table)),
        };
        return match checked {
            Err(refusal) => explain::refused(kind, path, bytes, table, refusal),
            Ok(()) => format!("{path}: refused {}", verdict.number),
        };
    }
    match file {
        0 => format!("{path}: accepted, symbols: {}", bytes.len()),
        _ => format!("{path}: accepted, {kind}: {}{}", parts(bytes).count(), editions::said(bytes)),
    }
}
