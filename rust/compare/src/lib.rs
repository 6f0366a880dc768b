//! Runs implementations of the interface on the same random cases and compares all that they show
//! and write.

mod case;
mod cases;
mod classes;
mod examples;
mod games;
mod histogram;
mod make;
mod nexts;
mod plains;
mod replaces;
mod rng;
mod skips;
mod splices;
mod stations;
mod stored;
mod told;

pub use histogram::Histogram;

use interface::Library;
use rng::Rng;

/// Which cases are compared: so many of a seed, from case `first` on.
#[derive(Clone, Copy, Debug)]
pub struct Cases {
    pub seed: u64,
    pub first: u64,
    pub number: u64,
    /// Elements of random contents on each side of every buffer. A tool that watches the memory
    /// sees more without them.
    pub margin: usize,
}

/// Compares an implementation with each of the others, the first of which gives the counts that
/// allowances are taken around. An error describes the first difference, or the first match that
/// counts more than its pattern can cost.
pub fn compare(
    one: &dyn Library,
    others: &[&dyn Library],
    cases: Cases,
) -> Result<Histogram, String> {
    let Cases { seed, first, number, margin } = cases;
    let mut histogram = Histogram::new();
    for number in first..first + number {
        let mut rng = Rng::new(seed, number);
        let case = cases::case(&mut rng, others[0]);
        let fill = rng.next();
        let shown = case.run(one, margin, fill);
        for (i, other) in others.iter().enumerate() {
            let expected = case.run(*other, margin, fill);
            if shown != expected {
                let difference = shown.difference(&expected);
                return Err(format!("seed {seed}, case {number}, other {i}: {case}\n{difference}"));
            }
        }
        let count = shown.result[2];
        if let Some(bound) = case.bound(one).filter(|&bound| count > bound) {
            return Err(format!("seed {seed}, case {number}: {case}\ncount {count} over {bound}"));
        }
        histogram.add(&case, &shown);
    }
    Ok(histogram)
}
