//! How far a command is, on standard error if that is a terminal.

use std::io::{self, IsTerminal, Write};
use std::time::{Duration, Instant};

use crate::clock::Clock;

/// Looks at the time once in so many records.
const RECORDS: u64 = 1 << 10;
const BETWEEN: Duration = Duration::from_millis(200);

pub struct Progress {
    is_shown: bool,
    len: u64,
    records: u64,
    messages: u64,
    /// Where the first record seen ended.
    first: Option<u64>,
    began: Instant,
    shown: Instant,
    has_line: bool,
}

impl Progress {
    pub fn new(len: u64, is_quiet: bool) -> Progress {
        Progress {
            is_shown: !is_quiet && io::stderr().is_terminal(),
            len,
            records: 0,
            messages: 0,
            first: None,
            began: Instant::now(),
            shown: Instant::now(),
            has_line: false,
        }
    }

    /// A record was worked that ends at this place.
    pub fn passed(&mut self, place: u64, time: u64, messages: u64, clock: &Clock) {
        self.records += 1;
        self.messages += messages;
        self.first.get_or_insert(place);
        if self.is_shown && self.records.is_multiple_of(RECORDS) && self.shown.elapsed() >= BETWEEN
        {
            self.shown = Instant::now();
            self.has_line = true;
            let line = self.line(place, &clock.show(time), self.began.elapsed());
            // What is not seen is no loss.
            let _ = write!(io::stderr(), "\r\x1b[K{line}");
        }
    }

    fn line(&self, place: u64, time: &str, elapsed: Duration) -> String {
        let seconds = elapsed.as_secs_f64().max(0.001);
        let share = 100.0 * place as f64 / self.len.max(1) as f64;
        let speed = self.messages as f64 / seconds;
        let worked = place.saturating_sub(self.first.unwrap_or(0)).max(1) as f64;
        let left = self.len.saturating_sub(place) as f64 / worked * seconds;
        format!(
            "{share:3.0}%  at {time}  {speed:.0} messages a second  {}:{:02} left",
            left as u64 / 60,
            left as u64 % 60
        )
    }

    /// Takes the line away.
    pub fn end(&mut self) {
        if std::mem::take(&mut self.has_line) {
            let _ = write!(io::stderr(), "\r\x1b[K");
        }
    }
}

#[cfg(test)]
mod tests {
    use super::*;

    #[test]
    fn half_way() {
        let mut progress = Progress::new(1000, true);
        progress.first = Some(0);
        progress.messages = 300;
        let line = progress.line(500, "09:30:00.0", Duration::from_secs(100));
        assert_eq!(line, " 50%  at 09:30:00.0  3 messages a second  1:40 left");
    }
}
