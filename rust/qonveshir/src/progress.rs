//! What is told on standard error of a command that takes over a second.

use std::io::{self, IsTerminal, Write};
use std::sync::atomic::{AtomicUsize, Ordering};
use std::sync::mpsc::{channel, Receiver, RecvTimeoutError, Sender};
use std::sync::Arc;
use std::thread::{self, JoinHandle};
use std::time::{Duration, Instant};

/// Tells, until it is dropped, how far a command is.
pub struct Progress {
    done: Arc<AtomicUsize>,
    end: Option<Sender<()>>,
    teller: Option<JoinHandle<()>>,
}

/// When the first word is said, and on a terminal each later one.
const FIRST: Duration = Duration::from_secs(1);
const NEXT: Duration = Duration::from_millis(250);
/// Steps that take far less than a second.
const QUICK: u32 = 10_000_000;

impl Progress {
    /// A command that does something, such as `matching`, with so many things if that is known.
    fn of(what: &'static str, things: Option<usize>) -> Progress {
        let done = Arc::new(AtomicUsize::new(0));
        let (end, ended) = channel();
        let counted = done.clone();
        let teller = thread::Builder::new().spawn(move || tell(what, things, &counted, &ended));
        Progress { done, end: Some(end), teller: teller.ok() }
    }

    /// A match that may count so many steps, unless they can't take a second.
    pub fn of_match(allowance: u32) -> Option<Progress> {
        (allowance > QUICK).then(|| Progress::of("matching", None))
    }

    /// A search for an example, which may try many states.
    pub fn of_example() -> Progress {
        Progress::of("looking for an example", None)
    }

    /// A report whose rules may each count so many steps on each state, unless that can't take a
    /// second.
    pub fn of_report(states: usize, rules: usize, allowance: u32) -> Option<Progress> {
        let steps = states * rules * allowance as usize;
        (steps > QUICK as usize).then(|| Progress::of("states matched", Some(states)))
    }

    /// A game of at most so many searches, each of which may count so many steps, unless that can't
    /// take a second.
    pub fn of_game(searches: usize, allowance: u32) -> Option<Progress> {
        let steps = searches.saturating_mul(allowance as usize);
        (steps > QUICK as usize).then(|| Progress::of("playing", None))
    }

    /// One thing more is done.
    pub fn step(&self) {
        self.done.fetch_add(1, Ordering::Relaxed);
    }
}

impl Drop for Progress {
    fn drop(&mut self) {
        drop(self.end.take());
        if let Some(teller) = self.teller.take() {
            let _ = teller.join();
        }
    }
}

/// Says again and again how far the command is: on a terminal in one line that is cleared at the
/// end, elsewhere in a line of its own after 1, 2, 4, 8 seconds and so on.
fn tell(what: &str, things: Option<usize>, done: &AtomicUsize, ended: &Receiver<()>) {
    let (start, terminal) = (Instant::now(), io::stderr().is_terminal());
    let (mut wait, mut said) = (FIRST, false);
    while ended.recv_timeout(wait) == Err(RecvTimeoutError::Timeout) {
        let seconds = start.elapsed().as_secs();
        let number = done.load(Ordering::Relaxed);
        let far = things.map_or(String::new(), |things| format!(", {number} of {things}"));
        let line = format!("qonveshir: {what}{far}, {seconds} s");
        let _ = match terminal {
            true => write!(io::stderr(), "\r{line}\x1b[K"),
            false => writeln!(io::stderr(), "{line}"),
        };
        wait = if terminal { NEXT } else { start.elapsed() };
        said = true;
    }
    if said && terminal {
        let _ = write!(io::stderr(), "\r\x1b[K");
    }
}
