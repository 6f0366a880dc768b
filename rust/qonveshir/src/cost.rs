//! `cost`.

use crate::command::{wrong_call, Command};
use crate::sheets::{accepted, lines};
use crate::{read, read_symbols, Console, Reply, ENGINE};
use interface::{edition_of, Word};

pub const COST: Command = Command {
    name: "cost",
    usage: &[(
        "cost SYMBOLS SHEET",
        "print how much each rule of a sheet can cost at most, a line for each: an allowance that \
         is never spent on it; and whether it is plain",
    )],
    help: "",
    run: |arguments, _: &mut Console| match arguments {
        [symbols, sheet] => cost(symbols, sheet),
        _ => wrong_call("cost"),
    },
};

/// What each rule of a sheet can cost at most.
fn cost(symbols: &str, path: &str) -> Reply {
    let (symbols, sheet) = (read_symbols(symbols)?, read(path)?);
    let language = symbols.language(edition_of(&sheet));
    accepted(path, ENGINE.0.check_rules(language, &sheet))?;
    lines(path, &sheet, |rule| {
        let cost = ENGINE.0.cost(language, rule);
        let text = symbols.show_pattern(rule)?;
        let plain = if ENGINE.0.is_plain(language, rule) { ", plain" } else { "" };
        Ok(match cost.word() {
            Some(Word::Bound) => format!("at most {}{plain}: {text}", cost.count),
            _ => format!("no bound{plain}: {text}"),
        })
    })
}
