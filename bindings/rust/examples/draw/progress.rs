//! How far a batch is, on a terminal, and how fast it goes.

use std::io::{self, IsTerminal, Write};
use std::time::{Duration, Instant};

/// The line is written anew no sooner than this.
const LEAST_PAUSE: Duration = Duration::from_millis(100);

/// From here on the time left is told in minutes.
const MANY_SECONDS: f64 = 120.0;

/// A line on standard error that is written over itself; none where that is no terminal.
pub struct Progress {
    begun: Instant,
    all: usize,
    done: usize,
    on_terminal: bool,
    written: Option<Instant>,
    /// How many characters stand in the line.
    width: usize,
}

impl Progress {
    pub fn new(all: usize) -> Progress {
        Progress {
            begun: Instant::now(),
            all,
            done: 0,
            on_terminal: io::stderr().is_terminal(),
            written: None,
            width: 0,
        }
    }

    /// One more label is done.
    pub fn step(&mut self) {
        self.done += 1;
        let now = Instant::now();
        let too_soon = |before| now.duration_since(before) < LEAST_PAUSE;
        if self.on_terminal && !self.written.is_some_and(too_soon) {
            self.write(&line(self.done, self.all, now.duration_since(self.begun)));
            self.written = Some(now);
        }
    }

    /// Clears the line, and tells how long it all took.
    pub fn end(mut self) -> Duration {
        if self.width > 0 {
            // Blanks, and back to where they begin.
            self.write("");
            self.write("");
        }
        self.begun.elapsed()
    }

    /// Blanks cover what is left of a longer line. A terminal that is gone stops no batch.
    fn write(&mut self, line: &str) {
        let _ = write!(io::stderr(), "\r{line:<width$}", width = self.width);
        self.width = line.len();
    }
}

fn line(done: usize, all: usize, since: Duration) -> String {
    let left = since.as_secs_f64() * (all - done) as f64 / done as f64;
    let left = match left {
        ..MANY_SECONDS => format!("{left:.0} s"),
        _ => format!("{:.0} min", left / 60.0),
    };
    let pace = pace(done, since);
    format!("draw: {done} of {all}, {pace}, {left} left")
}

/// How many labels a second.
pub fn pace(done: usize, since: Duration) -> String {
    // No clock is so fine that a batch takes less.
    let seconds = since.max(Duration::from_nanos(1)).as_secs_f64();
    match done as f64 / seconds {
        few @ ..10.0 => format!("{few:.1} labels a second"),
        many => format!("{many:.0} labels a second"),
    }
}

#[cfg(test)]
mod tests {
    use super::*;

    #[test]
    fn a_line_tells_how_far_how_fast_and_how_long() {
        for (done, all, milliseconds, said) in [
            (1200, 5000, 1277, "940 labels a second, 4 s left"),
            (1, 3, 2000, "0.5 labels a second, 4 s left"),
            (3, 3, 300, "10 labels a second, 0 s left"),
            (1, 60, 2000, "0.5 labels a second, 118 s left"),
            (1, 61, 2000, "0.5 labels a second, 2 min left"),
        ] {
            let line = line(done, all, Duration::from_millis(milliseconds));
            assert_eq!(line, format!("draw: {done} of {all}, {said}"));
        }
    }

    #[test]
    fn no_time_at_all_has_a_pace() {
        assert_eq!(pace(2, Duration::ZERO), "2000000000 labels a second");
    }
}
