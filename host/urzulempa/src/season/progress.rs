//! How far a season is, on standard error if a person sees it.

use std::io::{self, IsTerminal, Write};
use std::time::{Duration, Instant};

use super::table::grouped;

/// A line is shown so often at most.
const TURN: Duration = Duration::from_millis(200);

pub struct Progress {
    total: usize,
    start: Instant,
    /// None where nobody looks.
    shown: Option<Instant>,
    stands: bool,
}

impl Progress {
    pub fn of(total: usize) -> Progress {
        let start = Instant::now();
        Progress { total, start, shown: io::stderr().is_terminal().then_some(start), stands: false }
    }

    /// Files done, files a second, time left.
    pub fn show(&mut self, done: usize) {
        let Some(shown) = self.shown else { return };
        let now = Instant::now();
        if now - shown < TURN {
            return;
        }
        self.put(&line(done, self.total, now - self.start));
        (self.shown, self.stands) = (Some(now), true);
    }

    /// Takes the line away.
    pub fn clear(&mut self) {
        if self.stands {
            self.put("");
            self.stands = false;
        }
    }

    fn put(&self, line: &str) {
        let mut out = io::stderr().lock();
        // To the left margin, and what stood there is wiped.
        let _ = write!(out, "\r\x1b[K{line}").and_then(|()| out.flush());
    }
}

fn line(done: usize, total: usize, gone: Duration) -> String {
    let rate = done as f64 / gone.as_secs_f64().max(1e-9);
    let left = if done == 0 { "not known yet how long".to_owned() } else { format!("{} left", time((total - done) as f64 / rate)) };
    format!("{} of {} files, {} a second, {left}", grouped(done as u64), grouped(total as u64), grouped(rate as u64))
}

fn time(seconds: f64) -> String {
    let seconds = seconds.ceil() as u64;
    match (seconds / 3600, seconds / 60 % 60, seconds % 60) {
        (0, 0, s) => format!("{s} s"),
        (0, m, s) => format!("{m} min {s} s"),
        (h, m, _) => format!("{h} h {m} min"),
    }
}

#[cfg(test)]
mod tests {
    use super::*;

    #[test]
    fn a_line_says_files_done_files_a_second_and_time_left() {
        assert_eq!(line(0, 100_000, Duration::from_millis(200)), "0 of 100,000 files, 0 a second, not known yet how long");
        assert_eq!(line(25_000, 100_000, Duration::from_secs(2)), "25,000 of 100,000 files, 12,500 a second, 6 s left");
        assert_eq!(line(1_000, 100_000, Duration::from_secs(2)), "1,000 of 100,000 files, 500 a second, 3 min 18 s left");
        assert_eq!(line(10, 100_000, Duration::from_secs(1)), "10 of 100,000 files, 10 a second, 2 h 46 min left");
        assert_eq!(line(7, 7, Duration::from_secs(1)), "7 of 7 files, 7 a second, 0 s left");
    }
}
