//! What shows that a program holds the proved library, and not another behind the same interface.

use crate::sum::sum;
use std::{env, fmt, fs};

/// The proved library within a program.
#[derive(Debug)]
pub struct Evidence {
    /// The sum of the archive that was linked.
    pub sum: &'static str,
    /// The program logic that the library is proved in, by its own mark.
    pub logic: String,
    /// Functions of the proved crates below the interface.
    pub functions: Vec<String>,
}

/// The crates below the interface.
const CRATES: [&str; 17] = [
    "term", "reader", "skips", "parts", "steps", "search", "matcher", "plain", "cost", "sheet",
    "stored", "splice", "rules", "replace", "example", "station", "game",
];

/// Finds the proved library in the running program. An error says why it is not there, or that
/// the archive was built anew since the program was linked.
pub fn evidence() -> Result<Evidence, String> {
    let program = env::current_exe().and_then(fs::read).map_err(|error| error.to_string())?;
    let (logic, functions) = found_in(&program)?;
    let (path, linked) = (env!("QONVESHIR_LIBRARY"), env!("QONVESHIR_SUM"));
    match fs::read(path) {
        Ok(bytes) if format!("{:016x}", sum(&bytes)) != linked => {
            Err(format!("{path} was built anew since this program was linked: build it again"))
        }
        _ => Ok(Evidence { sum: linked, logic, functions }),
    }
}

/// The logic and the functions of the proved crates that a program's bytes name.
fn found_in(program: &[u8]) -> Result<(String, Vec<String>), String> {
    let mark = |text: &[u8]| {
        let sum = text.strip_prefix(b"rattle logic=")?;
        let whole = sum.len() == 64 && sum.iter().all(u8::is_ascii_hexdigit);
        whole.then(|| String::from_utf8_lossy(sum).into_owned())
    };
    let function = |text: &[u8]| {
        let text = std::str::from_utf8(text).ok()?;
        let (own, path) = text.split_once("::")?;
        (CRATES.contains(&own) && path.split("::").all(is_name)).then(|| text.to_owned())
    };
    let texts = || program.split(|&byte| byte == 0);
    let logic =
        texts().find_map(mark).ok_or("this program holds no library with a proof's mark")?;
    let functions: Vec<String> = texts().filter_map(function).collect();
    match functions.iter().any(|name| name.starts_with("search::")) {
        true => Ok((logic, functions)),
        false => Err("this program holds no function of the proved search".into()),
    }
}

/// Whether a text is the name of a module or a function.
fn is_name(text: &str) -> bool {
    !text.is_empty() && text.bytes().all(|byte| byte.is_ascii_lowercase() || byte == b'_')
}

impl fmt::Display for Evidence {
    fn fmt(&self, f: &mut fmt::Formatter) -> fmt::Result {
        let Evidence { sum, logic, functions } = self;
        let logic = &logic[..16];
        write!(f, "proved library {sum}, logic {logic}, with {}", functions.join(", "))
    }
}

#[cfg(test)]
mod tests {
    use super::*;
    use interface::{Language, Library};

    #[test]
    fn a_program_that_calls_the_library_holds_it() {
        assert_eq!(crate::Proved.find(Language::simple(&[0]), &[0], &[0], 1).0.count, 1);
        assert!(evidence().is_ok_and(|found| !found.functions.is_empty()));
    }

    #[test]
    fn another_program_does_not_hold_it() {
        let mark = format!("{} logic={}", "rattle", "0a".repeat(32));
        let whole = format!("\0{mark}\0term::decode\0search::level::level\0rattle logic=0\0");
        let (logic, functions) = found_in(whole.as_bytes()).unwrap();
        assert_eq!(logic.len(), 64);
        assert_eq!(functions, ["term::decode", "search::level::level"]);
        assert!(found_in(whole.replace("search", "reference").as_bytes()).is_err());
        assert!(found_in(whole.replace("0a0a", "0g0g").as_bytes()).is_err());
    }

    #[test]
    fn only_a_path_of_names_is_a_function() {
        let mark = format!("{} logic={}", "rattle", "0a".repeat(32));
        let found = |name: &str| found_in(format!("{mark}\0{name}\0").as_bytes()).is_ok();
        assert!(found("search::search") && found("search::level::level"));
        for name in ["search", "search::", "search::level::", "search::::level"] {
            assert!(!found(name), "{name}");
        }
        for name in ["search::level::Outcome", "reference::search::level", "a search::level"] {
            assert!(!found(name), "{name}");
        }
    }
}
