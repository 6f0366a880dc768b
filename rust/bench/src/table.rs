//! The tables of costs, in markdown.

use crate::before;
use crate::measure::{groups, Measured, Measurements};
use crate::peer::Peer;

/// The most that a row may cost, in the cost before a change.
const SLOWER: f64 = 1.03;

/// The most that a row may cost, in the cost of the variant with shortcuts.
const WORST: f64 = 2.5;

/// Cost and ratios of each workload and size, their means and worst, the same beside the library
/// before a change if there is one, beside Maude, what a step takes in lists of different lengths,
/// and how the cost grows with n.
pub fn markdown(Measurements { all, starts }: &Measurements, maude: Option<&Peer>) -> String {
    let changes = before::SUM.map_or(String::new(), |sum| changes(all, sum));
    let stepping = summary(all, |one| Some(one.proved / one.stepping), 1.0);
    let shortcuts = summary(all, |one| Some(one.proved / one.shortcuts), WORST);
    format!(
        "{}\nBeside the variant that tries every length: {stepping}\n\
         Beside the variant with shortcuts: {shortcuts}\n{changes}{}\n{}\n{}",
        costs(all),
        beside_maude(all, maude),
        steps(all, starts),
        growth(all)
    )
}

fn costs(measured: &[Measured]) -> String {
    let mut text = String::from(
        "| Workload | n | per | units a run | proved, ns | stepping, ns | ratio | shortcuts, ns | \
         ratio |\n|---|--:|---|--:|--:|--:|--:|--:|--:|\n",
    );
    for one in measured {
        let (work, units) = (&one.workload, one.workload.units as f64);
        text += &format!(
            "| {} | {} | {} | {} | {:.2} | {:.2} | {:.2} | {:.2} | {:.2} |\n",
            work.name,
            work.n,
            work.unit,
            work.units,
            one.proved / units,
            one.stepping / units,
            one.proved / one.stepping,
            one.shortcuts / units,
            one.proved / one.shortcuts,
        );
    }
    text
}

/// The mean over the workloads, in which the sizes of one weigh as one, the worst row, and how many
/// are within a limit; of the rows that have such a ratio.
fn summary(measured: &[Measured], ratio: fn(&Measured) -> Option<f64>, limit: f64) -> String {
    let rows = measured.iter().filter_map(|one| Some((&one.workload, ratio(one)?)));
    let rows: Vec<_> = rows.collect();
    let groups = rows.chunk_by(|a, b| a.0.name == b.0.name);
    let means: Vec<f64> = groups.map(|group| mean(group.iter().map(|row| row.1))).collect();
    let worst = rows.iter().max_by(|a, b| a.1.total_cmp(&b.1)).map_or(String::new(), |row| {
        format!(", worst {:.2} ({}, n = {})", row.1, row.0.name, row.0.n)
    });
    let within = rows.iter().filter(|row| row.1 <= limit).count();
    format!(
        "geometric mean of the ratios over the {} workloads {:.2}{worst}; {within} of {} rows are \
         at most {limit}.\n",
        means.len(),
        mean(means.iter().copied()),
        rows.len(),
    )
}

/// Costs of the library before a change and of the present one, for the calls that both have.
fn changes(measured: &[Measured], sum: &str) -> String {
    let mut text = format!(
        "The library before, {sum}, and the present one, linked alike, in the same rounds:\n\n\
         | Workload | n | per | before, ns | now, ns | ratio |\n|---|--:|---|--:|--:|--:|\n"
    );
    for one in measured {
        let Some([before, now]) = one.change else { continue };
        let (work, units) = (&one.workload, one.workload.units as f64);
        text += &format!(
            "| {} | {} | {} | {:.2} | {:.2} | {:.2} |\n",
            work.name,
            work.n,
            work.unit,
            before / units,
            now / units,
            now / before,
        );
    }
    format!("{text}\nNow over before: {}\n", summary(measured, Measured::change, SLOWER))
}

fn mean(values: impl Iterator<Item = f64>) -> f64 {
    let (sum, number) = values.fold((0.0, 0.0), |(sum, n), value| (sum + value.ln(), n + 1.0));
    f64::exp(sum / number)
}

/// Costs beside those of Maude, for the workloads that it has.
fn beside_maude(measured: &[Measured], maude: Option<&Peer>) -> String {
    let Some(peer) = maude else {
        return "Beside Maude: not measured, since this machine has no Maude.\n".into();
    };
    let mut text = format!(
        "Beside Maude {}: ns a run.\n\n| Workload | n | proved | Maude | Maude / proved |\n\
         |---|--:|--:|--:|--:|\n",
        peer.version
    );
    for one in measured {
        let (name, n, proved) = (one.workload.name, one.workload.n, one.proved);
        if let Some(cost) = peer.cost(name, n) {
            text += &format!("| {name} | {n} | {proved:.0} | {cost:.0} | {:.1} |\n", cost / proved);
        }
    }
    text
}

/// The time of a step in lists of different lengths: of the whole call, and of what it takes beyond
/// its start.
fn steps(measured: &[Measured], starts: &[Measured]) -> String {
    let mut text = String::from(
        "Time per counted step, in ns: the whole call over its steps, and the call without its \
         start (the same call with an allowance of 0) over its steps.\n\n\
         | Workload | n | proved | without start | stepping | without start | shortcuts | without \
         start |\n|---|--:|--:|--:|--:|--:|--:|--:|\n",
    );
    for start in starts {
        let (name, n) = (start.workload.name, start.workload.n);
        let costs = step(measured, start).map(|cost| format!("{cost:.2}"));
        text += &format!("| {name} | {n} | {} |\n", costs.join(" | "));
    }
    text
}

/// What a step of the search with this start takes: by each implementation, with and without the
/// start.
fn step(measured: &[Measured], start: &Measured) -> [f64; 6] {
    let same = |one: &&Measured| {
        one.workload.name == start.workload.name && one.workload.n == start.workload.n
    };
    let whole = measured.iter().find(same).expect("each start belongs to a workload");
    let ([a, b, c], [d, e, f]) = (whole.costs(), start.costs());
    [a, a - d, b, b - e, c, c - f].map(|cost| cost / whole.workload.units as f64)
}

fn growth(measured: &[Measured]) -> String {
    let mut text = String::from(
        "The cost of a run grows as n to the power of:\n\n\
         | Workload | n | proved | stepping | shortcuts |\n|---|---|--:|--:|--:|\n",
    );
    for group in groups(measured).filter(|group| group.len() > 1) {
        let (first, last) = (&group[0], &group[group.len() - 1]);
        let (low, high) = (first.workload.n, last.workload.n);
        let power = |i: usize| {
            let times = last.costs()[i] / first.costs()[i];
            format!("{:.2}", times.ln() / (high as f64 / low as f64).ln())
        };
        let powers = [0, 1, 2].map(power).join(" | ");
        text += &format!("| {} | {low} to {high} | {powers} |\n", first.workload.name);
    }
    text
}
