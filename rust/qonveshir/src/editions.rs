//! Editions of the rule language on the command line.

use crate::{command, trouble, Stop};
use interface::{edition_of, Edition};

/// Takes `--edition N` out of the arguments, wherever it stands.
pub fn taken<'a>(arguments: &[&'a str]) -> Result<(Option<Edition>, Vec<&'a str>), Stop> {
    let (option, rest) = command::taken(arguments, OPTION);
    match option[..] {
        [] => Ok((None, rest)),
        [_, "1"] => Ok((Some(Edition::ONE), rest)),
        [_, "2"] => Ok((Some(Edition::TWO), rest)),
        _ => trouble(format!("{}: expected {OPTION} 1 or {OPTION} 2", option.join(" "))),
    }
}

const OPTION: &str = "--edition";

/// What is said of a sheet's edition where it is not the first.
pub fn said(sheet: &[u8]) -> &'static str {
    match edition_of(sheet) {
        Edition::TWO => ", edition 2",
        _ => "",
    }
}
