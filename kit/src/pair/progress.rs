//! The line that says how far a pairing is.

use super::cases::Origin;
use super::shrink::Effort;
use std::io::{IsTerminal, Write};
use std::time::{Duration, Instant};

pub struct Progress {
    total: u64,
    since: Instant,
    /// When something was shown last.
    last: Option<Instant>,
    on_terminal: bool,
    quiet: bool,
}

impl Progress {
    pub fn new(total: u64, quiet: bool) -> Progress {
        Progress { total, since: Instant::now(), last: None, on_terminal: std::io::stderr().is_terminal(), quiet }
    }

    /// At once, and then twice a second, on a terminal. A file or another program is not told.
    pub fn show(&mut self, done: u64) {
        self.put(|progress| line(done, progress.total, progress.since.elapsed()));
    }

    /// While a difference is made smaller, how much of what may be done for it is done.
    pub fn show_tries(&mut self, origin: &Origin, tries: usize, effort: Effort) {
        let (tries, most) = (grouped(tries as u64), grouped(effort.tries as u64));
        self.put(|_| format!("making {origin} smaller: {tries} tries of {most} at the most"));
    }

    fn put(&mut self, line: impl Fn(&Progress) -> String) {
        let is_recent = self.last.is_some_and(|last| last.elapsed() < Duration::from_millis(500));
        if self.quiet || !self.on_terminal || is_recent {
            return;
        }
        self.last = Some(Instant::now());
        let _ = write!(std::io::stderr(), "\r{}\x1B[K", line(self));
    }

    /// The time it took; a line on a terminal is ended.
    pub fn end(&self) -> Duration {
        if self.on_terminal && !self.quiet {
            let _ = write!(std::io::stderr(), "\r\x1B[K");
        }
        self.since.elapsed()
    }
}

fn line(done: u64, total: u64, time: Duration) -> String {
    if done == 0 {
        return format!("0 of {} cases", grouped(total));
    }
    let rate = done as f64 / time.as_secs_f64().max(0.001);
    let left = total.saturating_sub(done) as f64 / rate.max(0.001);
    let left = Duration::try_from_secs_f64(left).unwrap_or(Duration::MAX);
    format!("{} of {} cases, {} a second, {} left", grouped(done), grouped(total), grouped(rate as u64), clock(left))
}

/// A number with a comma before each three digits.
pub fn grouped(n: u64) -> String {
    let digits = n.to_string();
    let groups: Vec<&str> =
        digits.as_bytes().rchunks(3).rev().filter_map(|three| std::str::from_utf8(three).ok()).collect();
    groups.join(",")
}

pub fn clock(time: Duration) -> String {
    match time.as_secs() {
        seconds @ ..60 => format!("{seconds} s"),
        seconds @ ..3600 => format!("{} min {} s", seconds / 60, seconds % 60),
        seconds => format!("{} h {} min", seconds / 3600, seconds / 60 % 60),
    }
}

#[cfg(test)]
mod tests {
    use super::*;

    /// However many cases there are and however slowly they go.
    #[test]
    fn a_line_is_there_at_once() {
        assert_eq!(line(0, 5_000, Duration::ZERO), "0 of 5,000 cases");
        let never = "1 of 18,446,744,073,709,551,615 cases, 0 a second, 5124095576030431 h 0 min left";
        assert_eq!(line(1, u64::MAX, Duration::from_secs(50)), never);
    }

    #[test]
    fn lines_are_read_easily() {
        assert_eq!(
            line(250_000, 1_000_000, Duration::from_secs(50)),
            "250,000 of 1,000,000 cases, 5,000 a second, 2 min 30 s left"
        );
        assert_eq!(
            (grouped(0), grouped(999), clock(Duration::from_secs(3700))),
            ("0".into(), "999".into(), "1 h 1 min".into())
        );
    }
}
