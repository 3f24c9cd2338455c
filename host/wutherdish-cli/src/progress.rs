//! How far a long feed is read, said on standard error.

use std::io::{self, IsTerminal, Write};
use std::time::{Duration, Instant};

/// How long a line stands before the next one replaces it.
const PAUSE: Duration = Duration::from_millis(250);

/// A line that says how many points were read, and what part of the file. It is erased when this is dropped.
pub struct Progress {
    total: usize,
    /// When the next line may be written; none where no progress is wanted.
    next: Option<Instant>,
    shown: bool,
}

impl Progress {
    /// For a file of n bytes. Where it is not asked for, it is shown to a person who sees no other output
    /// meanwhile, and not before it is worth it.
    pub fn new(total: usize, asked: bool, output_is_seen: bool) -> Self {
        let next = match asked {
            true => Some(Instant::now()),
            false => (io::stderr().is_terminal() && !output_is_seen).then(|| Instant::now() + PAUSE),
        };
        Self { total, next, shown: false }
    }

    /// Says that n points, which end at this byte, were read.
    pub fn show(&mut self, points: usize, at: usize) {
        if self.next.is_some_and(|next| Instant::now() >= next) {
            let percent = 100 * at as u128 / self.total.max(1) as u128;
            self.write(&format!("\rpoints: {points}, {percent} %"));
            self.next = Some(Instant::now() + PAUSE);
            self.shown = true;
        }
    }

    /// A line that can't be shown is no reason to stop.
    fn write(&self, line: &str) {
        let mut err = io::stderr().lock();
        let _ = err.write_all(line.as_bytes()).and_then(|()| err.flush());
    }
}

impl Drop for Progress {
    fn drop(&mut self) {
        if self.shown {
            // to the front of the line, and what stands there erased
            self.write("\r\x1b[K");
        }
    }
}
