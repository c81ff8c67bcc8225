//! A recording, read from front to back while its calls are carried out.

use std::fs::File;
use std::ops::ControlFlow;

use quotebook::log::{Head, LogReader, Record, Stop, HEAD_LEN};

use crate::args::Arguments;
use crate::clock::Clock;
use crate::fault::Fault;
use crate::play::Player;
use crate::progress::Progress;

/// An open recording.
pub struct Recording {
    pub len: u64,
    pub head: Head,
    pub clock: Clock,
    reader: LogReader<File>,
    progress: Progress,
    /// How reading stopped, once it has.
    pub stop: Option<Stop>,
}

/// A record that was carried out.
pub struct Played<'a> {
    /// Its place among the records, from 0.
    pub index: u64,
    pub record: Record<'a>,
    pub player: &'a Player,
}

impl Recording {
    pub fn open(arguments: &Arguments) -> Result<Recording, Fault> {
        let path = &arguments.recording;
        let file = match File::open(path) {
            Ok(file) => file,
            Err(error) => return Fault::usage(format!("{path}: {error}")),
        };
        let len = file.metadata().map_or(0, |about| about.len());
        let damaged = |error: &dyn std::fmt::Display| Fault::Damaged(error.to_string());
        let mut reader = LogReader::new(file).map_err(|error| damaged(&error))?;
        if !(1..=64).contains(&reader.head().n) {
            let n = reader.head().n;
            return Err(Fault::Damaged(format!("no book is made for {n} symbols")));
        }
        let first = reader.read().map_err(|error| damaged(&error))?;
        let first = first.map_or(0, |record| record.time);
        reader
            .seek(HEAD_LEN as u64)
            .map_err(|error| damaged(&error))?;
        Ok(Recording {
            len,
            head: reader.head(),
            clock: Clock::new(arguments.get("--unit"), arguments.get("--zone"), first)?,
            reader,
            progress: Progress::new(len, arguments.has("--quiet")),
            stop: None,
        })
    }

    /// Reads on at a place where a record begins.
    pub fn seek(&mut self, place: u64) -> Result<(), Fault> {
        self.stop = None;
        let sought = self.reader.seek(place);
        sought.map_err(|error| Fault::Damaged(error.to_string()))
    }

    /// Carries out the records from here on, the first being record `index`, until there are no more,
    /// one has a time behind `last`, or the visitor breaks. A damaged recording is worked up to its
    /// damage.
    pub fn play(
        &mut self,
        player: &mut Player,
        mut index: u64,
        last: u64,
        mut visit: impl FnMut(&Played) -> Result<ControlFlow<()>, Fault>,
    ) -> Result<(), Fault> {
        loop {
            let read = self.reader.read();
            let read = read.map_err(|error| Fault::Damaged(error.to_string()))?;
            let Some(record) = read.filter(|record| record.time <= last) else {
                break;
            };
            player.play(&record.call);
            let messages = player.messages.len() as u64;
            self.progress
                .passed(record.next, record.time, messages, &self.clock);
            let played = Played {
                index,
                record,
                player,
            };
            if visit(&played)?.is_break() {
                break;
            }
            index += 1;
        }
        self.stop = self.reader.stop();
        self.progress.end();
        Ok(())
    }

    /// The fault of a recording that was read to its damage.
    pub fn damage(&self) -> Result<(), Fault> {
        self.stop.map_or(Ok(()), Fault::of_stop)
    }
}
