//! The measuring: the implementations in turn, round by round.

use crate::before;
use crate::workloads::{self, Workload};
use interface::Library;
use proved::Proved;
use reference::{Reference, Shortcuts};
use std::{hint::black_box, time::Instant};

/// How many rounds, and how long a workload runs in each, in ns.
#[derive(Clone, Copy)]
pub struct Effort {
    rounds: usize,
    batch: f64,
}

impl Effort {
    pub const FULL: Effort = Effort { rounds: 41, batch: 1e6 };
    pub const QUICK: Effort = Effort { rounds: 5, batch: 5e5 };
}

/// A workload's cost in ns a run: the best round, since whatever else the machine does only adds.
pub struct Measured {
    pub workload: Workload,
    pub proved: f64,
    /// Those of the library before a change and of the present one, linked alike.
    pub change: Option<[f64; 2]>,
    /// That of the independent implementation that tries every length.
    pub stepping: f64,
    /// That of the independent implementation with shortcuts.
    pub shortcuts: f64,
}

/// A run that takes longer, in ns, is measured in few rounds: of so much work a busy moment makes
/// little.
const LONG: f64 = 5e7;
const FEW_ROUNDS: usize = 2;

impl Measured {
    fn new(workload: Workload) -> Self {
        let first = |library: &dyn Library| {
            let once = timed(&workload, library, 1);
            if once > LONG {
                once
            } else {
                timed(&workload, library, 3)
            }
        };
        let (proved, stepping, shortcuts) = (first(&Proved), first(&Reference), first(&Shortcuts));
        let change = before::having(workload.call).map(|both| both.map(first));
        Measured { proved, change, stepping, shortcuts, workload }
    }

    fn round(&mut self, round: usize, batch: f64) {
        let better = |best: &mut f64, library: &dyn Library| {
            if *best > LONG && round >= FEW_ROUNDS {
                return;
            }
            let runs = (batch / *best).ceil() as u64;
            *best = best.min(timed(&self.workload, library, runs));
        };
        better(&mut self.proved, &Proved);
        if let (Some(best), Some(both)) = (&mut self.change, before::having(self.workload.call)) {
            best.iter_mut().zip(both).for_each(|(best, library)| better(best, library));
        }
        better(&mut self.stepping, &Reference);
        better(&mut self.shortcuts, &Shortcuts);
    }

    /// The three costs.
    pub fn costs(&self) -> [f64; 3] {
        [self.proved, self.stepping, self.shortcuts]
    }

    /// The present library's cost over that of the library before.
    pub fn change(&self) -> Option<f64> {
        self.change.map(|[before, now]| now / before)
    }
}

/// The workloads, and the starts of some of them.
pub struct Measurements {
    pub all: Vec<Measured>,
    pub starts: Vec<Measured>,
}

/// Measures every workload in each round, so that a busy moment falls on all of them. Each round has
/// the stack at another place, so that no figure hangs on where it happens to lie beside the heap.
pub fn measurements(effort: Effort) -> Measurements {
    let new = |work: Vec<Workload>| work.into_iter().map(Measured::new).collect::<Vec<_>>();
    let (mut all, mut starts) = (new(workloads::all()), new(workloads::starts()));
    for round in 0..effort.rounds {
        deeper(round, &mut || {
            all.iter_mut().chain(&mut starts).for_each(|one| one.round(round, effort.batch));
        });
    }
    Measurements { all, starts }
}

/// Runs that many frames of some 100 bytes further down the stack.
#[inline(never)]
fn deeper(frames: usize, run: &mut dyn FnMut()) {
    let frame = black_box([0u8; 64]);
    if frames == 0 {
        run();
    } else {
        deeper(frames - 1, run);
    }
    black_box(&frame);
}

/// The sizes of each workload, side by side.
pub fn groups(measured: &[Measured]) -> impl Iterator<Item = &[Measured]> {
    measured.chunk_by(|a, b| a.workload.name == b.workload.name)
}

/// The cost of a run in ns; a profiler may count within this function alone.
#[inline(never)]
pub fn timed(workload: &Workload, library: &dyn Library, runs: u64) -> f64 {
    let start = Instant::now();
    (0..runs).for_each(|_| (workload.run)(library));
    start.elapsed().as_nanos() as f64 / runs as f64
}
