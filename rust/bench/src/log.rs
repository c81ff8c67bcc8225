//! What a log costs beside the calls themselves: to write it, to read it and to replay it.

use std::fs::{self, File};
use std::hint::black_box;
use std::path::{Path, PathBuf};
use std::time::Instant;

use crate::market::LETTERS;
use crate::stream::{Kind, Size, Stream};
use quotebook::lent;
use quotebook::log::{self, Flush, LogReader, Recorder, Records, Restored, Sink};
use quotebook::{Book, Number};
use second::terms::ANSWER_LEN;

/// A day: its log up to where the measured blocks begin, the book there, and the log of all.
struct Day {
    stream: Stream,
    before: Vec<u8>,
    begun: Restored,
    whole: Vec<u8>,
    /// The book at the end.
    ended: Vec<u8>,
}

fn set_up<W: Sink>(recorder: &mut Recorder<W>, stream: &Stream) {
    for (symbol, round_lot) in &stream.symbols {
        let added = recorder.add_symbol(symbol, *round_lot, b'N');
        added.expect("a symbol is added");
    }
    for (line, &letter) in LETTERS.iter().enumerate() {
        recorder.open_line(line as u32, letter).expect("a line");
    }
}

fn take<'a, W: Sink>(
    recorder: &mut Recorder<W>,
    blocks: impl Iterator<Item = (u32, &'a [u8])>,
) -> usize {
    let mut answer = [0; ANSWER_LEN];
    blocks
        .map(|(line, block)| {
            let report = recorder.raw().take_block(line, block, &mut answer);
            assert_eq!(report.expect("the log").number, Number::Done);
        })
        .count()
}

impl Day {
    fn new(n: usize, size: Size, messages: usize) -> Day {
        let stream = Stream::new(n, Kind::Mixed, size, messages);
        let mut recorder = Recorder::new(Vec::new(), n as u32, Flush::Each).expect("n is 1 to 64");
        set_up(&mut recorder, &stream);
        recorder.start_day().expect("a closed day");
        take(&mut recorder, stream.warming());
        let (_, before) = recorder.finish().expect("memory");
        let begun = log::restore(&before).expect("a head");
        let resumed = Recorder::resume(before.clone(), begun.clone(), Flush::Each);
        let mut recorder = resumed.expect("memory");
        take(&mut recorder, stream.measured());
        let (book, whole) = recorder.finish().expect("memory");
        Day {
            stream,
            before,
            begun,
            whole,
            ended: book.as_bytes().to_vec(),
        }
    }

    /// Nanoseconds a block in the fastest of some rounds, each way in turn: calls alone, replayed, records
    /// read, recorded in memory, in a file 64 at a time, in a file each.
    fn fastest(&self, rounds: usize, path: &Path) -> [f64; 6] {
        let file = || {
            fs::write(path, &self.before).expect("a file");
            File::options().write(true).open(path).expect("a file")
        };
        let mut fastest = [f64::INFINITY; 6];
        for _ in 0..rounds {
            let mut log = Vec::with_capacity(self.whole.len());
            log.extend(&self.before);
            let times = [
                self.calls(),
                self.replay(),
                self.read(),
                self.record(log, Flush::Each),
                self.record(file(), Flush::Every(64)),
                self.record(file(), Flush::Each),
            ];
            for (fastest, time) in fastest.iter_mut().zip(times) {
                *fastest = fastest.min(time);
            }
        }
        fastest.map(|time| time / self.stream.blocks() as f64)
    }

    fn calls(&self) -> f64 {
        let mut book = self.begun.book.as_bytes().to_vec();
        let mut answer = [0; ANSWER_LEN];
        let took = timed(|| {
            for (line, block) in self.stream.measured() {
                black_box(lent::take_block(&mut book, line, block, &mut answer));
            }
        });
        assert!(book == self.ended);
        took
    }

    fn replay(&self) -> f64 {
        let mut book = self.begun.book.as_bytes().to_vec();
        let mut output = vec![0; 1 << 16];
        let took = timed(|| {
            let mut at = self.before.len();
            loop {
                let told = lent::replay(&mut book, &self.whole, at, &mut output);
                if told.number != Number::LogRoom {
                    assert_eq!(told.number, Number::Done);
                    break;
                }
                at = told.place;
            }
        });
        assert!(book == self.ended);
        took
    }

    fn read(&self) -> f64 {
        timed(|| {
            let records = Records::at(&self.whole, self.before.len());
            assert_eq!(records.map(black_box).count(), self.stream.blocks());
        })
    }

    /// Recorded on what holds the log up to the measured blocks.
    fn record<W: Sink>(&self, log: W, flush: Flush) -> f64 {
        let resumed = Recorder::resume(log, self.begun.clone(), flush);
        let mut recorder = resumed.expect("the log");
        let took = timed(|| {
            take(&mut recorder, self.stream.measured());
            recorder.flush().expect("the log");
        });
        assert!(recorder.book().as_bytes() == self.ended);
        took
    }
}

fn timed(work: impl FnOnce()) -> f64 {
    let began = Instant::now();
    work();
    began.elapsed().as_nanos() as f64
}

fn scratch() -> PathBuf {
    std::env::temp_dir().join(format!("quotebook-bench-{}.log", std::process::id()))
}

/// Nanoseconds a block, then a log of so many blocks.
pub fn print(messages: usize, rounds: usize, blocks: usize) -> Result<(), String> {
    println!(
        "| log, ns a block | n | messages a block | bytes a record | calls alone | replay | records read | recorded in memory | in a file, 64 at a time | in a file, each |"
    );
    println!("|---|---|---|---|---|---|---|---|---|---|");
    let path = scratch();
    for (name, size) in [
        ("full blocks", Size::Full),
        ("single messages", Size::Fixed(1)),
    ] {
        for n in [1, 64] {
            let day = Day::new(n, size, messages);
            let times = day.fastest(rounds, &path);
            let times = times.map(|time| format!("{time:.0}"));
            let count = day.stream.blocks() as f64;
            let record = (day.whole.len() - day.before.len()) as f64 / count;
            println!(
                "| {name} | {n} | {:.1} | {record:.0} | {} |",
                day.stream.messages_a_block(),
                times.join(" | ")
            );
        }
    }
    let told = long(blocks, messages, &path).map_err(|error| error.to_string());
    drop(fs::remove_file(&path));
    println!("\n{}", told?);
    Ok(())
}

/// Records so many blocks of 64 symbols in a file, day by day, and restores the book from it.
fn long(blocks: usize, messages: usize, path: &Path) -> Result<String, log::LogError> {
    let stream = Stream::new(64, Kind::Mixed, Size::Full, messages);
    let mut recorder = Recorder::new(File::create(path)?, 64, Flush::Every(64))?;
    let began = Instant::now();
    set_up(&mut recorder, &stream);
    let mut taken = 0;
    while taken < blocks {
        recorder.start_day()?;
        let day = stream.warming().chain(stream.measured());
        taken += take(&mut recorder, day.take(blocks - taken));
        recorder.end_day()?;
    }
    let (book, _) = recorder.finish()?;
    let recorded = began.elapsed().as_secs_f64();
    let began = Instant::now();
    let restored = Book::restore(File::open(path)?)?;
    let replayed = began.elapsed().as_secs_f64();
    assert!(restored.book == book && restored.stop.number() == 0);
    let began = Instant::now();
    let mut reader = LogReader::new(File::open(path)?)?;
    let mut records = 0;
    while reader.read()?.is_some() {
        records += 1;
    }
    assert_eq!(records, restored.calls);
    Ok(format!(
        "A log of {taken} blocks, {} calls, {} bytes: recorded in {recorded:.1} s, restored from its file in {replayed:.1} s, its records read in {:.1} s.{}",
        restored.calls,
        restored.stop.place(),
        began.elapsed().as_secs_f64(),
        most_memory()
    ))
}

/// The most memory that the process had, where the system tells.
fn most_memory() -> String {
    let status = fs::read_to_string("/proc/self/status").unwrap_or_default();
    let most = status
        .lines()
        .find_map(|line| line.strip_prefix("VmHWM:"))
        .map(|most| format!(" Most memory of the process: {}.", most.trim()));
    most.unwrap_or_default()
}

#[cfg(test)]
mod tests {
    use super::*;

    /// Every way to take the blocks leaves the same book.
    #[test]
    fn all_ways_end_alike() {
        print(500, 1, 2_000).expect("no difference");
    }
}
