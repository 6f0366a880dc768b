//! What a real terminal gets, by its width, and what a pipe gets. The terminal is a pseudo-terminal
//! of the system.

#![cfg(target_os = "linux")]

mod common;

use common::{folder, program, SYMBOLS};
use std::ffi::{c_char, c_int, c_ulong, CStr};
use std::fs::{self, File, OpenOptions};
use std::io::{Read, Write};
use std::os::fd::{AsRawFd, FromRawFd};
use std::path::Path;
use std::process::Stdio;
#[cfg(feature = "link")]
use std::time::{Duration, Instant};

extern "C" {
    fn posix_openpt(flags: c_int) -> c_int;
    fn grantpt(master: c_int) -> c_int;
    fn unlockpt(master: c_int) -> c_int;
    fn ptsname_r(master: c_int, name: *mut c_char, length: usize) -> c_int;
    fn ioctl(file: c_int, request: c_ulong, ...) -> c_int;
}

const O_RDWR_NOCTTY: c_int = 0o402;
const TIOCSWINSZ: c_ulong = 0x5414;

/// A pseudo-terminal of a width: the end that reads what is shown, and the terminal itself.
fn terminal(columns: u16) -> (File, File) {
    let mut name = [0; 64];
    // SAFETY: each call gets a file that is open and a buffer of the length that it is told.
    unsafe {
        let master = posix_openpt(O_RDWR_NOCTTY);
        assert!(master >= 0 && grantpt(master) == 0 && unlockpt(master) == 0);
        assert_eq!(ptsname_r(master, name.as_mut_ptr(), name.len()), 0);
        let path = CStr::from_ptr(name.as_ptr()).to_str().unwrap();
        let slave = OpenOptions::new().read(true).write(true).open(path).unwrap();
        let size: [u16; 4] = [24, columns, 0, 0];
        assert_eq!(ioctl(slave.as_raw_fd(), TIOCSWINSZ, &size), 0);
        (File::from_raw_fd(master), slave)
    }
}

/// All that a terminal of a width shows, as standard output and standard error.
fn shown(folder: &Path, columns: u16, variables: &[(&str, &str)], arguments: &[&str]) -> String {
    let (mut master, slave) = terminal(columns);
    let mut command = program(folder, arguments);
    command.env_remove("NO_COLOR").env("TERM", "xterm").envs(variables.iter().copied());
    command.stdout(slave.try_clone().unwrap()).stderr(slave);
    let mut child = command.stdin(Stdio::null()).spawn().unwrap();
    drop(command);
    let (mut text, mut piece) = (Vec::new(), [0; 4096]);
    // The terminal is closed when the program ends; the read then fails or gives nothing.
    while let Ok(length @ 1..) = master.read(&mut piece) {
        text.extend(&piece[..length]);
    }
    child.wait().unwrap();
    String::from_utf8(text).unwrap().replace("\r\n", "\n")
}

/// A text without colours.
fn plain(text: &str) -> String {
    let mut parts = text.split("\x1b[");
    let first = parts.next().unwrap().to_string();
    first + &parts.map(|part| part.split_once('m').unwrap().1).collect::<String>()
}

#[test]
fn a_session_has_a_prompt_on_a_terminal() {
    let folder = folder("prompt");
    let (mut master, slave) = terminal(80);
    let mut command = program(&folder, &["session", SYMBOLS, "gates(shut)"]);
    command.env("NO_COLOR", "1").stdin(slave.try_clone().unwrap());
    command.stdout(slave.try_clone().unwrap()).stderr(slave);
    let mut child = command.spawn().unwrap();
    drop(command);
    master.write_all(b"keep a\nmend\nshow\n\x04").unwrap();
    let (mut text, mut piece) = (Vec::new(), [0; 4096]);
    while let Ok(length @ 1..) = master.read(&mut piece) {
        text.extend(&piece[..length]);
    }
    assert_eq!(child.wait().unwrap().code(), Some(2));
    let text = String::from_utf8(text).unwrap().replace("\r\n", "\n");
    // What is typed is echoed by the terminal, before or between the answers.
    let typed = ["keep a\n", "mend\n", "show\n"];
    let text = typed.iter().fold(text, |text, line| text.replacen(line, "", 1));
    let wrong = "qonveshir: line 2, mend: no such command; see help\n";
    assert_eq!(text, format!("> kept a\n> {wrong}> gates(shut)\n> \n"));
    fs::remove_dir_all(folder).unwrap();
}

const RULE: &str = "gates(@0, !open, ?0, @1)";

#[test]
fn marks_and_colour_on_a_terminal_only() {
    let folder = folder("terminal");
    let call = ["match", SYMBOLS, RULE, "gates(open, shut, held)"];
    let text = shown(&folder, 80, &[], &call);
    assert!(text.starts_with("\x1b[32mbound\x1b[0m 12\n"), "{text:?}");
    let marked = "\
bound 12
    gates(open, shut, held)
?0                    ^^^^
@0        ^^^^
@1                        |
?0 = held  (offset 4, length 1)
@0 = open  (offset 2, length 1, terms 1)
@1 = nothing  (offset 5, length 0, terms 0)
";
    assert_eq!(plain(&text), marked);
    for variable in [("NO_COLOR", "1"), ("TERM", "dumb")] {
        assert_eq!(shown(&folder, 80, &[variable], &call), marked);
    }
    let piped = program(&folder, &call).output().unwrap();
    let unmarked: Vec<&str> = marked.lines().filter(|line| !line.contains(['|', '^'])).collect();
    let unmarked = unmarked.join("\n").replace("    gates(open, shut, held)\n", "") + "\n";
    assert_eq!(String::from_utf8(piped.stdout).unwrap(), unmarked);
    fs::remove_dir_all(folder).unwrap();
}

#[test]
fn lines_fit_the_terminal() {
    let folder = folder("width");
    let state = format!("gates({}shut, held)", "open, ".repeat(60));
    let call = ["match", SYMBOLS, RULE, &state];
    for columns in [30, 40, 80, 132] {
        let text = plain(&shown(&folder, columns, &[], &call));
        let marks: Vec<&str> =
            text.lines().take_while(|line| !line.contains(" = ")).skip(1).collect();
        assert!(marks.iter().all(|line| line.len() <= columns.into()), "{columns}: {text}");
        // Every character of the 60 open gates has its mark.
        let number = marks.iter().map(|line| line.matches('^').count()).sum::<usize>();
        assert_eq!(number, "open, ".len() * 60 - 2 + "held".len(), "{columns}: {text}");
        let longest = marks.iter().map(|line| line.len()).max().unwrap();
        assert!(longest + "open, ".len() > columns.into(), "{columns}: {text}");
    }
    let why = ["why", SYMBOLS, "gates(@0, row(?0, ?0), @1)", &state];
    let text = plain(&shown(&folder, 36, &[], &why));
    let expected = "\
none 126
rule   gates(@0, row(?0, ?0), @1)
                 ^^^^^^^^^^^
...
       open, shut, held)
                       ^
because the list has no element left for it
so far @0 = open, ";
    assert!(text.starts_with(expected), "{text}");
    fs::remove_dir_all(folder).unwrap();
}

/// What is told of the first of ever longer works of which anything is told. How long a work takes
/// is the machine's affair, but none may take ten seconds untold.
#[cfg(feature = "link")]
fn first_told<T>(works: std::ops::RangeInclusive<u32>, told: impl Fn(u32) -> Option<T>) -> T {
    let told_in_time = |size| {
        let start = Instant::now();
        let told = told(size);
        assert!(told.is_some() || start.elapsed() < Duration::from_secs(10), "nothing was told");
        told
    };
    works.into_iter().find_map(told_in_time).expect("the longest work takes over a second")
}

/// A rule that tries its run names' lengths, nearly each by itself, on a list of like elements.
#[cfg(feature = "link")]
const LONG_RULE: &str = "gates(@0, !?0, @1, ?0, @2, !?0, @3, ?0, @4, !?0, @5, ?0)";

#[cfg(feature = "link")]
fn long_match<'a>(state: &'a str, allowance: &'a str) -> [&'a str; 6] {
    ["match", "--allowance", allowance, SYMBOLS, LONG_RULE, state]
}

// The independent implementation, in this build, takes far longer for as many steps.
#[cfg(feature = "link")]
#[test]
fn tells_how_far_it_is() {
    let folder = folder("progress");
    let state = format!("gates({})", vec!["open"; 250].join(", "));
    let told = first_told(0..=7, |size| {
        let allowance = (20_000_000_u32 << size).to_string();
        let output = program(&folder, &long_match(&state, &allowance)).output().unwrap();
        assert_eq!(String::from_utf8(output.stdout).unwrap(), format!("spent {allowance}\n"));
        Some(String::from_utf8(output.stderr).unwrap()).filter(|told| !told.is_empty())
    });
    let first = told.lines().next().unwrap();
    assert!(first.starts_with("qonveshir: matching, ") && first.ends_with(" s"), "{told:?}");
    let told = first_told(0..=7, |size| {
        let allowance = (20_000_000_u32 << size).to_string();
        let text = shown(&folder, 80, &[], &long_match(&state, &allowance));
        let told = text.strip_suffix(&format!("\x1b[31mspent\x1b[0m {allowance}\n"));
        told.map(str::to_string).filter(|told| !told.is_empty())
    });
    assert!(told.starts_with("\rqonveshir: matching, ") && told.contains(" s\x1b[K"), "{told:?}");
    assert!(told.ends_with("\r\x1b[K"), "{told:?}");
    assert!(program(&folder, &long_match(&state, "1000")).output().unwrap().stderr.is_empty());
    fs::remove_dir_all(folder).unwrap();
}

#[cfg(feature = "link")]
#[test]
fn tells_how_far_a_report_is() {
    let folder = folder("long-report");
    let put = |name: &str, text: String| fs::write(folder.join(name), text).unwrap();
    put("symbols.txt", SYMBOLS.into());
    put("states.txt", format!("gates({})\n", vec!["open"; 18].join(", ")).repeat(700));
    let told = first_told(0..=6, |size| {
        let rules = 1 << size;
        put("rules.txt", format!("{LONG_RULE}\n").repeat(rules));
        assert!(program(&folder, &["pack", "folder", "."]).output().unwrap().status.success());
        let output = program(&folder, &["report", "."]).output().unwrap();
        let last = format!("699 - none {}\n", rules * 81_163);
        assert!(String::from_utf8(output.stdout).unwrap().ends_with(&last));
        Some(String::from_utf8(output.stderr).unwrap()).filter(|told| !told.is_empty())
    });
    assert!(told.starts_with("qonveshir: states matched, "), "{told:?}");
    assert!(told.lines().next().unwrap().contains(" of 700, "), "{told:?}");
    fs::remove_dir_all(folder).unwrap();
}

#[cfg(feature = "link")]
#[test]
fn tells_that_it_plays() {
    let folder = folder("long-game");
    let put = |name: &str, text: String| fs::write(folder.join(name), text).unwrap();
    put("symbols.txt", SYMBOLS.into());
    put("start.txt", format!("gates({})\n", vec!["open"; 250].join(", ")));
    put("goal.txt", LONG_RULE.into());
    put("loader.txt", String::new());
    put("sender.txt", String::new());
    let told = first_told(0..=7, |size| {
        let allowance = (20_000_000_u32 << size).to_string();
        let call = ["play", ".", "--turns", "6", "--allowance", &allowance];
        let output = program(&folder, &call).output().unwrap();
        assert_eq!(String::from_utf8(output.stdout).unwrap(), format!("spent {allowance}\n"));
        Some(String::from_utf8(output.stderr).unwrap()).filter(|told| !told.is_empty())
    });
    assert!(told.starts_with("qonveshir: playing, "), "{told:?}");
    fs::remove_dir_all(folder).unwrap();
}
