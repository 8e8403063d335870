//! What a person at a terminal sees of long work, on standard error. Elsewhere nothing is written.

use slider::is_terminal;
use std::io::{self, Write};
use std::sync::mpsc::{self, RecvTimeoutError};
use std::thread;
use std::time::{Duration, Instant};

const TICK: Duration = Duration::from_millis(250);
const WIPE: &str = "\r\x1b[K";

fn show(text: &str) {
    let mut stderr = io::stderr();
    let _ = write!(stderr, "{WIPE}{text}").and_then(|()| stderr.flush());
}

/// Does the work. A build is one call of the library, so what can be shown meanwhile is the time that it has taken.
pub fn shown<T>(what: &str, work: impl FnOnce() -> T) -> T {
    if !is_terminal(2) {
        return work();
    }
    let (done, over) = mpsc::channel::<()>();
    let what = what.to_string();
    let clock = thread::spawn(move || {
        let start = Instant::now();
        while over.recv_timeout(TICK) == Err(RecvTimeoutError::Timeout) {
            show(&format!("{what}: {:.1} s ", start.elapsed().as_secs_f64()));
        }
        show("");
    });
    let answer = work();
    drop(done);
    let _ = clock.join();
    answer
}

/// Counts lines, and shows the count where the lines themselves go elsewhere.
pub struct Lines {
    counted: u64,
    shown: Option<Instant>,
}

impl Lines {
    pub fn new() -> Lines {
        let seen = is_terminal(2) && !is_terminal(1);
        Lines { counted: 0, shown: seen.then(Instant::now) }
    }

    pub fn count(&mut self) {
        self.counted += 1;
        if self.counted % 4096 != 0 {
            return;
        }
        if let Some(at) = self.shown.as_mut().filter(|at| at.elapsed() >= TICK) {
            *at = Instant::now();
            show(&format!("{} lines ", self.counted));
        }
    }

    pub fn counted(&self) -> u64 {
        self.counted
    }
}

impl Drop for Lines {
    fn drop(&mut self) {
        if self.shown.is_some() {
            show("");
        }
    }
}
