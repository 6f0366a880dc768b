//! What the tests of the program share.

#![allow(dead_code)]

use std::path::{Path, PathBuf};
use std::process::Command;
use std::{env, fs};

/// Document 01's symbols.
pub const SYMBOLS: &str = "open shut held gate/1 row/2 gates/*";

/// A folder of its own for a test, with document 01's symbols.
pub fn folder(name: &str) -> PathBuf {
    let folder = env::temp_dir().join(format!("qonveshir-{name}-{}", std::process::id()));
    fs::create_dir_all(&folder).unwrap();
    fs::write(folder.join("symbols"), format!("{SYMBOLS}\n")).unwrap();
    folder
}

/// The program, to be run in a folder.
pub fn program(folder: &Path, arguments: &[&str]) -> Command {
    let mut command = Command::new(env!("CARGO_BIN_EXE_qonveshir"));
    command.args(arguments).current_dir(folder);
    command
}

/// Status and output, standard error last, of a command run in a folder.
pub fn run(folder: &Path, arguments: &[&str]) -> (i32, String) {
    let output = program(folder, arguments).output().unwrap();
    let text = [output.stdout, output.stderr].concat();
    (output.status.code().unwrap(), String::from_utf8(text).unwrap())
}
