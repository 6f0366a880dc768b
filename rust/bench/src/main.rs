//! `bench [--quick] [FILE]`: the proved library beside both variants of the independent
//! implementation and, where the machine has it, beside Maude.
//!
//! Prints a table. With a markdown file, writes the table into it between the lines `<!-- table -->`
//! and `<!-- end of table -->`, and a plot beside it as `benchmark.svg`.
//! `bench --run LIBRARY WORKLOAD N RUNS` only runs one workload, for a profiler.

mod before;
mod date;
mod editions;
mod examples;
mod games;
mod measure;
mod peer;
mod plot;
mod replaces;
mod stations;
mod table;
mod workloads;

use interface::Library;
use measure::Effort;
use std::{env, fs, path::Path, process::ExitCode};

const USAGE: &str = "usage: bench [--quick] [FILE]
       bench --run proved|stepping|shortcuts|before|now WORKLOAD N RUNS";

fn main() -> ExitCode {
    let arguments: Vec<String> = env::args().skip(1).collect();
    let arguments: Vec<&str> = arguments.iter().map(String::as_str).collect();
    let done = match arguments[..] {
        ["--run", library, name, n, runs] => run_one(library, name, n, runs),
        ["--quick"] => table_and_plot(Effort::QUICK, None),
        ["--quick", file] => table_and_plot(Effort::QUICK, Some(Path::new(file))),
        [] => table_and_plot(Effort::FULL, None),
        [file] if !file.starts_with('-') => table_and_plot(Effort::FULL, Some(Path::new(file))),
        _ => Err(USAGE.into()),
    };
    match done {
        Ok(()) => ExitCode::SUCCESS,
        Err(message) => {
            eprintln!("bench: {message}");
            ExitCode::from(2)
        }
    }
}

/// Measures all workloads; there are no figures unless this program holds the proved library.
fn table_and_plot(effort: Effort, file: Option<&Path>) -> Result<(), String> {
    let evidence = proved::evidence()?;
    let page = file.map(read_page).transpose()?;
    let measured = measure::measurements(effort);
    let tables = table::markdown(&measured, peer::maude()?.as_ref());
    let table = format!("{}, {evidence}.\n\n{tables}", date::today());
    print!("{table}");
    let (Some(file), Some((before, after))) = (file, page) else { return Ok(()) };
    write(file, &format!("{before}{TABLE}\n\n{table}\n{END}{after}"))?;
    write(&file.with_file_name("benchmark.svg"), &plot::svg(&measured.all))
}

const TABLE: &str = "<!-- table -->";
const END: &str = "<!-- end of table -->";

/// What a page has before and after its table.
fn read_page(file: &Path) -> Result<(String, String), String> {
    let page = fs::read_to_string(file).map_err(|error| format!("{}: {error}", file.display()))?;
    let (before, rest) = page.split_once(TABLE).ok_or(format!("{}: no {TABLE}", file.display()))?;
    let (_, after) = rest.split_once(END).ok_or(format!("{}: no {END}", file.display()))?;
    Ok((before.into(), after.into()))
}

fn write(file: &Path, text: &str) -> Result<(), String> {
    fs::write(file, text).map_err(|error| format!("{}: {error}", file.display()))
}

/// Runs one workload and prints how much there was to do.
fn run_one(library: &str, name: &str, n: &str, runs: &str) -> Result<(), String> {
    let runs: u64 = runs.parse().map_err(|_| USAGE)?;
    let all = workloads::all();
    let wanted = all.iter().find(|one| one.name == name && one.n.to_string() == n);
    let workload = wanted.ok_or("no such workload or n")?;
    let library: &dyn Library = match library {
        "proved" => &proved::Proved,
        "before" | "now" => {
            let both = before::having(workload.call).ok_or("no library before has the call")?;
            both[usize::from(library == "now")]
        }
        "stepping" => &reference::Reference,
        "shortcuts" => &reference::Shortcuts,
        _ => return Err(USAGE.into()),
    };
    measure::timed(workload, library, runs);
    println!("{} {}s", workload.units * runs, workload.unit);
    Ok(())
}
