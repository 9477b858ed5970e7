//! A line on standard error every few seconds.

use std::time::{Duration, Instant};

const PAUSE: Duration = Duration::from_secs(5);
/// Calls between two looks at the clock.
const LOOK: u64 = 4096;

/// How many calls there have been since the start.
pub struct Progress {
    start: Instant,
    shown: Instant,
    calls: u64,
    part: Option<Part>,
}

/// The part of the run whose end is known.
struct Part {
    start: Instant,
    done: u64,
    all: u64,
}

impl Part {
    /// How much of it is done, and how long the rest takes at this pace.
    fn words(&self) -> String {
        let seconds = self.start.elapsed().as_secs_f64();
        let share = self.done as f64 / self.all as f64;
        let percent = 100.0 * share;
        if self.done == 0 {
            return format!("{percent:.1} %");
        }
        let left = seconds / share - seconds;
        format!("{percent:.1} %, about {} left", duration(left as u64))
    }
}

/// Seconds, minutes or hours, whichever is readable.
fn duration(seconds: u64) -> String {
    match seconds {
        0..=119 => format!("{seconds} s"),
        120..=7199 => format!("{} min", seconds / 60),
        _ => format!("{:.1} h", seconds as f64 / 3600.0),
    }
}

impl Progress {
    /// Starts the clock.
    pub fn start() -> Progress {
        let now = Instant::now();
        Progress {
            start: now,
            shown: now,
            calls: 0,
            part: None,
        }
    }

    /// Tells that so much of the part whose end is known is done.
    pub fn reach(&mut self, done: u64, all: u64) {
        let start = self.part.as_ref().map_or_else(Instant::now, |part| part.start);
        self.part = Some(Part { start, done, all });
    }

    /// Counts one call and shows where it came from, if it is time.
    pub fn count(&mut self, origin: &str) {
        self.calls += 1;
        if self.calls % LOOK == 0 && self.shown.elapsed() >= PAUSE {
            self.shown = Instant::now();
            let seconds = self.start.elapsed().as_secs();
            let part = match &self.part {
                Some(part) => part.words(),
                None => String::from("directed trials, before the random ones"),
            };
            eprintln!("{seconds} s: {part}; {} calls; {origin}", self.calls);
        }
    }
}

#[cfg(test)]
mod tests {
    use super::*;

    #[test]
    fn a_share_is_told_in_percent() {
        let mut progress = Progress::start();
        progress.reach(0, 8);
        assert_eq!(progress.part.as_ref().map(Part::words), Some(String::from("0.0 %")));
        progress.reach(2, 8);
        let words = progress.part.as_ref().map(Part::words).unwrap_or_default();
        assert!(words.starts_with("25.0 %, about "), "{words}");
    }

    #[test]
    fn a_duration_is_readable() {
        assert_eq!(duration(119), "119 s");
        assert_eq!(duration(120), "2 min");
        assert_eq!(duration(9000), "2.5 h");
    }
}
