//! Runs every example of docs/GUIDE.md and README.md, and compares what is printed with the page.
//!
//! In a block a line that starts with `$ ` is typed; it goes on through the lines that start with
//! `> `, or through those of a text that ends with `END`. What follows is its output, standard
//! error included. In a table of rules, states and answers each row is a match with `symbols.txt`.

use std::fs;
use std::iter::Peekable;
use std::path::{Path, PathBuf};
use std::process::Command;
use std::{env, slice};

/// A folder of its own with the samples and a folder for what is built, in which a page's examples are run one after the other.
struct Desk(PathBuf);

impl Desk {
    fn new(name: &str) -> Self {
        let desk = env::temp_dir().join(format!("qonveshir-{name}-{}", std::process::id()));
        fs::create_dir_all(&desk).unwrap();
        fs::create_dir_all(desk.join("target")).unwrap();
        copy(&top().join("samples"), &desk.join("samples"));
        Desk(desk)
    }

    /// What a shell prints for a command, but that it takes long, which a busy machine may see.
    fn typed(&self, command: &str) -> String {
        let program = Path::new(env!("CARGO_BIN_EXE_qonveshir"));
        let path = format!("{}:{}", program.parent().unwrap().display(), env::var("PATH").unwrap());
        let script = format!("exec 2>&1\n{command}\n");
        let mut shell = Command::new("sh");
        shell.args(["-c", &script]).env("PATH", path).current_dir(&self.0);
        let printed = String::from_utf8(shell.output().unwrap().stdout).unwrap();
        let told = |line: &&str| !line.starts_with("qonveshir: states matched, ");
        printed.split_inclusive('\n').filter(told).collect()
    }

    /// The answer to a rule on a state as a table has it: the word and the count, then each name.
    fn answer(&self, rule: &str, state: &str) -> String {
        let text = self.typed(&format!("qonveshir match symbols.txt '{rule}' '{state}'"));
        let mut lines = text.lines();
        let word = lines.next().unwrap_or("").to_string();
        let names = lines.map(|line| format!(", `{}`", line.split("  (").next().unwrap()));
        word + &names.collect::<String>()
    }
}

impl Drop for Desk {
    fn drop(&mut self) {
        let _ = fs::remove_dir_all(&self.0);
    }
}

/// The top of the repository.
fn top() -> PathBuf {
    Path::new(env!("CARGO_MANIFEST_DIR")).join("../..")
}

fn copy(from: &Path, to: &Path) {
    fs::create_dir_all(to).unwrap();
    for entry in fs::read_dir(from).unwrap() {
        let (path, to) = (entry.as_ref().unwrap().path(), to.join(entry.unwrap().file_name()));
        match path.is_dir() {
            true => copy(&path, &to),
            false => fs::copy(path, to).map(|_| ()).unwrap(),
        }
    }
}

/// An example of a page, with what the page says of it.
enum Example {
    Typed { command: String, printed: String },
    Row { rule: String, state: String, answer: String },
}

/// The examples of a page in their order.
fn examples(page: &str) -> Vec<Example> {
    let lines: Vec<&str> = page.lines().collect();
    let (mut lines, mut examples, mut block) = (lines.iter().peekable(), Vec::new(), false);
    while let Some(line) = lines.next() {
        match line.strip_prefix("$ ") {
            Some(first) if block => examples.push(typed(first, &mut lines)),
            _ if line.starts_with("```") => block = !block,
            _ if !block => examples.extend(row(line)),
            _ => {}
        }
    }
    examples
}

type Lines<'a, 'b> = Peekable<slice::Iter<'b, &'a str>>;

/// A command whose first line was read, and its output.
fn typed(first: &str, lines: &mut Lines) -> Example {
    let mut command = first.to_string();
    if first.contains("<<'END'") {
        for line in lines.by_ref() {
            command = command + "\n" + line;
            if *line == "END" {
                break;
            }
        }
    }
    while let Some(line) = lines.next_if(|line| line.starts_with("> ")) {
        command = command + "\n" + &line[2..];
    }
    let mut printed = String::new();
    while let Some(line) = lines.next_if(|line| !line.starts_with("$ ") && !line.starts_with("```"))
    {
        printed = printed + line + "\n";
    }
    Example::Typed { command, printed }
}

/// The rule, state and answer of a table's row.
fn row(line: &str) -> Option<Example> {
    let mut cells = line.strip_prefix("| `")?.strip_suffix(" |")?.splitn(3, " | ");
    let rule = cells.next()?.strip_suffix('`')?.to_string();
    let state = cells.next()?.strip_prefix('`')?.strip_suffix('`')?.to_string();
    let answer = cells.next()?.to_string();
    let word = answer.split([' ', ',']).next()?;
    ["bound", "none", "spent"].contains(&word).then_some(Example::Row { rule, state, answer })
}

/// Runs a page's examples, and tells how many commands and rows it has.
fn check(page: &str, desk: &Desk) -> (usize, usize) {
    let text = fs::read_to_string(top().join(page)).unwrap();
    let (mut commands, mut rows) = (0, 0);
    for example in examples(&text) {
        match example {
            Example::Typed { command, printed } => {
                assert_eq!(desk.typed(&command), printed, "{page}: {command}");
                commands += 1;
            }
            Example::Row { rule, state, answer } => {
                assert_eq!(desk.answer(&rule, &state), answer, "{page}: {rule} on {state}");
                rows += 1;
            }
        }
    }
    (commands, rows)
}

#[test]
fn the_guide_is_right() {
    let (commands, rows) = check("docs/GUIDE.md", &Desk::new("guide"));
    let text = fs::read_to_string(top().join("docs/GUIDE.md")).unwrap();
    // Nothing that looks like an example is passed over.
    assert_eq!(commands, text.lines().filter(|line| line.starts_with("$ ")).count());
    let answers = text.lines().filter(|line| {
        line.starts_with("| `") && [" bound ", " none ", " spent "].iter().any(|w| line.contains(w))
    });
    assert_eq!(rows, answers.count());
    assert!(commands > 30 && rows > 50, "{commands} commands, {rows} rows");
}

#[test]
fn the_readme_is_right() {
    let (commands, _) = check("README.md", &Desk::new("readme"));
    assert!(commands > 5, "{commands} commands");
}
