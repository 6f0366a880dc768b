//! Maude's costs on some of the workloads, by the script `maude` beside this program's source.

use std::process::Command;

/// What the script found out.
pub struct Peer {
    pub version: String,
    costs: Vec<(String, usize, f64)>,
}

impl Peer {
    /// The cost of a workload in ns a run, if the script has it.
    pub fn cost(&self, name: &str, n: usize) -> Option<f64> {
        let found = self.costs.iter().find(|one| one.0 == name && one.1 == n);
        found.map(|one| one.2)
    }
}

/// The status with which the script says that the machine has no Maude.
const NO_MAUDE: i32 = 3;

/// Runs the script; nothing where the machine has no Maude.
pub fn maude() -> Result<Option<Peer>, String> {
    let script = concat!(env!("CARGO_MANIFEST_DIR"), "/maude");
    let run = Command::new(script).output().map_err(|error| format!("{script}: {error}"))?;
    match run.status.code() {
        Some(0) => read(&String::from_utf8_lossy(&run.stdout)).map(Some),
        Some(NO_MAUDE) => Ok(None),
        _ => Err(format!("{script}: {}", String::from_utf8_lossy(&run.stderr))),
    }
}

/// Reads the script's lines: the version, then n, cost and name of each workload.
fn read(text: &str) -> Result<Peer, String> {
    let mut lines = text.lines();
    let version = lines.next().and_then(|line| line.strip_prefix("version "));
    let cost = |line: &str| {
        let (n, rest) = line.split_once(' ')?;
        let (cost, name) = rest.split_once(' ')?;
        Some((name.to_owned(), n.parse().ok()?, cost.parse().ok()?))
    };
    let costs = lines.map(|line| cost(line).ok_or(format!("maude: {line}")));
    let version = version.ok_or("maude: no version")?.to_owned();
    Ok(Peer { version, costs: costs.collect::<Result<_, _>>()? })
}

#[cfg(test)]
mod tests {
    #[test]
    fn lines() {
        let peer = super::read("version 3.2\n10 2200 all different\n40 15 deep term\n").unwrap();
        assert_eq!((peer.version.as_str(), peer.cost("deep term", 40)), ("3.2", Some(15.0)));
        assert_eq!((peer.cost("deep term", 10), peer.costs.len()), (None, 2));
        assert!(super::read("10 2200 all different\n").is_err());
        assert!(super::read("version 3.2\n10 all different\n").is_err());
    }
}
