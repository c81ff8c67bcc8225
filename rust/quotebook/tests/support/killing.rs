//! A recording process that is killed at random places, again and again.
//!
//! The process makes the calls of a source log on a recorder, whose log is a file; it writes a few bytes
//! at a time, so that many kills fall inside a record. Killed, it is started again: it restores the book
//! from its log, or from its last checkpoint and the rest, and goes on. When all calls are made, its log
//! is the source log, and the book is that of an uninterrupted run.

use std::fs::{self, File};
use std::io::{self, Cursor, Write};
use std::path::{Path, PathBuf};
use std::process::Command;
use std::thread;
use std::time::Duration;

use quotebook::log::{
    Checkpoint, Flush, Head, LogReader, Record, Recorder, Records, Restored, Sink,
};
use quotebook::{lent, Book};
use second::generate::{self, Random};

use super::recording::{change, record};

/// Names of the files in a process's folder.
const SOURCE: &str = "source.log";
const LOG: &str = "calls.log";
const CHECKPOINT: &str = "calls.checkpoint";
/// A checkpoint is taken after so many calls.
const CHECKPOINT_EVERY: u64 = 1000;

/// A file that takes few bytes at a time.
struct Slow {
    file: File,
    at_once: usize,
}

impl Write for Slow {
    fn write(&mut self, bytes: &[u8]) -> io::Result<usize> {
        self.file.write(&bytes[..bytes.len().min(self.at_once)])
    }

    fn flush(&mut self) -> io::Result<()> {
        self.file.flush()
    }
}

impl Sink for Slow {
    fn sync(&mut self) -> io::Result<()> {
        self.file.sync()
    }

    fn length(&mut self) -> io::Result<u64> {
        self.file.length()
    }

    fn truncate(&mut self, len: u64) -> io::Result<()> {
        self.file.truncate(len)
    }
}

/// The recording process: goes on where its folder's log ends, until the source ends. The seed chooses
/// how it writes.
pub fn process(folder: &Path, seed: u64) {
    let mut random = Random::new(seed);
    let flush = random.pick(&[
        Flush::Each,
        Flush::Every(5),
        Flush::Manual,
        Flush::SyncEvery(500),
    ]);
    let at_once = random.pick(&[7, 40, 300, 1 << 20]);
    let open = |name| File::open(folder.join(name));
    let source = open(SOURCE).expect("the source log");
    let mut source = LogReader::new(source).expect("the source log has a head");
    let file = File::options()
        .create(true)
        .truncate(false)
        .write(true)
        .open(folder.join(LOG));
    let sink = Slow {
        file: file.expect("the log"),
        at_once,
    };
    let restored = match Checkpoint::load(folder.join(CHECKPOINT)) {
        Ok(checkpoint) if random.percent(50) => checkpoint.restore(open(LOG).expect("the log")),
        _ => Book::restore(open(LOG).expect("the log")),
    };
    let mut recorder = match restored {
        Ok(restored) => {
            source.seek(restored.stop.place()).expect("the source log");
            Recorder::resume(sink, restored, flush).expect("the log")
        }
        // killed before the head was whole
        Err(_) => {
            let mut sink = sink;
            sink.truncate(0).expect("the log");
            Recorder::new(sink, u32::from(source.head().n), flush).expect("the log")
        }
    };
    let mut calls = 0;
    while let Some(Record { time, call, .. }) = source.read().expect("the source log") {
        record(recorder.at(time), &call).expect("the log can be written");
        calls += 1;
        if calls % CHECKPOINT_EVERY == 0 {
            let checkpoint = recorder.checkpoint().expect("the log");
            checkpoint
                .save(folder.join(CHECKPOINT))
                .expect("the folder");
        }
    }
    recorder.finish().expect("the log");
}

/// What the kills of a run met.
#[derive(Default, Debug)]
pub struct Met {
    pub kills: u64,
    /// Runs that made all calls of their source.
    pub runs: u64,
    /// Logs that ended inside the head, inside a record, behind one.
    pub headless: u64,
    pub cut: u64,
    pub whole: u64,
    /// Lost tails: logs cut at a random byte, and logs with a page of zeros.
    pub tails: u64,
    pub pages: u64,
    /// Calls that were restored, in all.
    pub calls: u64,
}

/// A source log, and the books of an uninterrupted run.
struct Source {
    log: Vec<u8>,
    /// Where each record begins, and the end.
    places: Vec<u64>,
    /// The book after each so many calls.
    books: Vec<Vec<u8>>,
}

const KEPT_EVERY: usize = 250;

impl Source {
    fn new(seed: u64, calls: usize) -> Source {
        let list = (seed << 8..)
            .map(|seed| generate::list(seed, calls))
            .find(|list| list.n <= 8)
            .expect("some books are small");
        let n = list.n;
        let mut log = Head::new(n as u8).to_bytes().to_vec();
        for (time, call) in list.calls.iter().enumerate() {
            log.extend(second::log::write(call, time as u64));
        }
        let mut book = vec![0; lent::book_len(n).expect("n is 1 to 64")];
        lent::make(&mut book, n);
        let (mut places, mut books) = (Vec::new(), Vec::new());
        for (at, record) in Records::new(&log).enumerate() {
            if at % KEPT_EVERY == 0 {
                books.push(book.clone());
            }
            places.push(record.place);
            change(&mut book, &record.call);
        }
        places.push(log.len() as u64);
        Source { log, places, books }
    }

    /// The book of an uninterrupted run after so many calls.
    fn book_after(&self, calls: usize) -> Vec<u8> {
        let kept = (calls / KEPT_EVERY).min(self.books.len() - 1);
        let mut book = self.books[kept].clone();
        let first = kept * KEPT_EVERY;
        let records = Records::at(&self.log, self.places[first] as usize);
        for record in records.take(calls - first) {
            change(&mut book, &record.call);
        }
        book
    }

    /// A log, as far as it is whole, is the source's; the book is that of an uninterrupted run after the
    /// calls that the log holds.
    fn check(&self, log: &[u8], restored: &Restored) {
        let place = restored.stop.place();
        let calls = self.places.binary_search(&place).expect("a record's end");
        assert_eq!(restored.calls, calls as u64);
        assert!(log[..place as usize] == self.log[..place as usize]);
        assert!(restored.book.as_bytes() == self.book_after(calls));
    }
}

/// Kills processes so many times. `command` starts one on a folder, with a seed.
pub fn run(kills: u64, seed: u64, command: impl Fn(&Path, u64) -> Command) -> Met {
    let mut random = Random::new(seed);
    let mut met = Met::default();
    let folder = folder(seed);
    for run in 0.. {
        if met.kills >= kills {
            break;
        }
        fs::create_dir_all(&folder).expect("a folder");
        let source = Source::new(seed + run, 4000);
        fs::write(folder.join(SOURCE), &source.log).expect("the folder");
        // microseconds: from before a process's first byte to after its last
        let mut longest = 20_000;
        let mut before = 0;
        loop {
            let mut child = command(&folder, random.number())
                .spawn()
                .expect("the process");
            thread::sleep(Duration::from_micros(random.below(longest) as u64));
            let done = child.try_wait().expect("the process");
            child.kill().expect("the process");
            let status = child.wait().expect("the process");
            assert!(done.is_none() || status.success(), "the process failed");
            let log = fs::read(folder.join(LOG)).unwrap_or_default();
            if status.success() {
                assert!(log == source.log);
                met.runs += 1;
                break;
            }
            met.kills += 1;
            // on a busy machine a process takes longer to begin
            if log.len() <= before {
                longest += longest / 2;
            }
            before = log.len();
            look_at(&source, log, &folder, &mut random, &mut met);
        }
        fs::remove_dir_all(&folder).expect("the folder");
    }
    met
}

/// The log of a killed process, and what might have been left of it.
fn look_at(source: &Source, mut log: Vec<u8>, folder: &Path, random: &mut Random, met: &mut Met) {
    let Ok(restored) = Book::restore(&log[..]) else {
        assert!(log.len() < 16 && source.log.starts_with(&log));
        met.headless += 1;
        return;
    };
    source.check(&log, &restored);
    met.calls += restored.calls;
    match restored.stop.number() {
        0 => met.whole += 1,
        91 => met.cut += 1,
        number => panic!("{number}: the file system keeps what was written"),
    }
    if let Ok(checkpoint) = Checkpoint::load(folder.join(CHECKPOINT)) {
        let after = checkpoint.restore(Cursor::new(&log)).expect("its log");
        assert!(after.book == restored.book && after.stop == restored.stop);
    }
    // a machine that stops loses more: the end of the file, or a page in it
    let len = 16 + random.below(log.len() - 15);
    let cut = quotebook::log::restore(&log[..len]).expect("a head");
    source.check(&log, &cut);
    assert!(cut.stop.place() <= len as u64 && cut.stop.number() != 92);
    met.tails += 1;
    let page = random.below(log.len()) / 4096 * 4096;
    let zeroed = page.max(16)..log.len().min(page + 4096);
    log[zeroed.clone()].fill(0);
    let left = quotebook::log::restore(&log).expect("a head");
    source.check(&log, &left);
    met.pages += 1;
}

fn folder(seed: u64) -> PathBuf {
    let name = format!("quotebook-killed-{}-{seed}", std::process::id());
    std::env::temp_dir().join(name)
}
