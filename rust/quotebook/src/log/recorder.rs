//! A book that logs its calls.

use std::fs::File;
use std::io::{self, ErrorKind, Seek, SeekFrom, Write};

use super::call::LENT_MAX;
use super::{Call, Checkpoint, Head, LogError, Restored, CHECK_LEN};
use crate::book::Book;

/// Where a log is written.
pub trait Sink: Write {
    /// Sees to it that what was written outlasts the machine.
    fn sync(&mut self) -> io::Result<()>;

    /// How many bytes it has.
    fn length(&mut self) -> io::Result<u64>;

    /// Keeps the first `len` bytes, of which it has no fewer; the next are written behind them.
    fn truncate(&mut self, len: u64) -> io::Result<()>;
}

/// A file that begins with the log's head.
impl Sink for File {
    fn sync(&mut self) -> io::Result<()> {
        self.sync_data()
    }

    fn length(&mut self) -> io::Result<u64> {
        Ok(self.metadata()?.len())
    }

    fn truncate(&mut self, len: u64) -> io::Result<()> {
        self.set_len(len)?;
        self.seek(SeekFrom::Start(len)).map(drop)
    }
}

impl Sink for Vec<u8> {
    fn sync(&mut self) -> io::Result<()> {
        Ok(())
    }

    fn length(&mut self) -> io::Result<u64> {
        Ok(self.len() as u64)
    }

    fn truncate(&mut self, len: u64) -> io::Result<()> {
        Vec::truncate(self, len as usize);
        Ok(())
    }
}

/// When records are written. Those that are not are lost with the process; those that are not synced may
/// be lost with the machine.
#[derive(Clone, Copy, PartialEq, Eq, Debug)]
pub enum Flush {
    /// Each record, before its call is carried out.
    Each,
    /// So many records at a time, before the last one's call is carried out.
    Every(u32),
    /// When [`Recorder::flush`] says so, and whenever 64 KiB are gathered.
    Manual,
    /// Each record, and the log is synced, before its call is carried out.
    Sync,
    /// So many records at a time, and the log is synced, before the last one's call is carried out.
    SyncEvery(u32),
}

impl Flush {
    fn syncs(self) -> bool {
        matches!(self, Flush::Sync | Flush::SyncEvery(_))
    }

    fn is_due(self, records: u32) -> bool {
        match self {
            Flush::Each | Flush::Sync => true,
            Flush::Every(every) | Flush::SyncEvery(every) => records >= every,
            Flush::Manual => false,
        }
    }
}

/// The most bytes of records that are gathered.
const GATHERED_MAX: usize = 1 << 16;

/// A book that appends each call to a log before the call is carried out.
///
/// Its calls are those of [`Book`], and answer the same; [`raw`](Recorder::raw) has those of
/// [`lent`](crate::lent). A refused call is logged too: a replay refuses it again. Reads that
/// need no record are made on [`book`](Recorder::book).
///
/// If a write fails, the call is not carried out and the book is as it was. The log may then end in a
/// part of that call's record, or even in all of it; so the recorder refuses further calls
/// ([`LogError::Failed`]) until [`retry`](Recorder::retry) has cut the log back to the calls that were
/// carried out. Whoever cannot retry restores from the log in another process; the call whose write
/// failed may then be among those that it holds. After a sync that failed, the system may have dropped
/// what was written since the last one: go on in another file, from a [`Checkpoint`] on another disk or
/// with a new book.
///
/// ```
/// use quotebook::log::{restore, Flush, Recorder, Stop};
///
/// # fn main() -> Result<(), Box<dyn std::error::Error>> {
/// let mut recorder = Recorder::new(Vec::new(), 1, Flush::Each)?;
/// recorder.add_symbol("ZT", 100, b'N')?;
/// recorder.at(34_200_000_000).start_day()?;
/// let (book, mut log) = recorder.finish()?;
/// log.pop(); // a crash
///
/// let restored = restore(&log)?;
/// assert_eq!((restored.calls, restored.stop), (1, Stop::Cut(49)));
/// let mut recorder = Recorder::resume(log, restored, Flush::Each)?;
/// recorder.at(34_200_000_000).start_day()?;
/// assert_eq!(recorder.book(), &book);
/// # Ok(())
/// # }
/// ```
#[derive(Debug)]
pub struct Recorder<W> {
    pub(super) book: Book,
    log: W,
    flush: Flush,
    time: u64,
    /// Bytes that the log was given.
    written: u64,
    /// Bytes that it is to be given next.
    gathered: Vec<u8>,
    /// The records in them.
    records: u32,
    /// The log's length with the records of all calls that were carried out, and the last bytes of it.
    place: u64,
    last: [u8; CHECK_LEN],
    failed: bool,
}

impl<W: Sink> Recorder<W> {
    /// A new book for n symbols, and a new log, which gets its head. One that is not empty is an error.
    pub fn new(mut log: W, n: u32, flush: Flush) -> Result<Recorder<W>, LogError> {
        let book = Book::new(n)?;
        if log.length()? > 0 {
            return Err(io::Error::from(ErrorKind::AlreadyExists).into());
        }
        let mut recorder = Recorder::begin(log, book, flush);
        recorder.gathered.extend(Head::new(n as u8).to_bytes());
        recorder.finish_record(true)?;
        Ok(recorder)
    }

    /// Goes on with a log that a book was restored from. What stands behind its last whole record is cut
    /// off. A log that is shorter than the one that was restored from is an error.
    pub fn resume(mut log: W, restored: Restored, flush: Flush) -> Result<Recorder<W>, LogError> {
        if log.length()? < restored.stop.place() {
            return Err(io::Error::from(ErrorKind::UnexpectedEof).into());
        }
        let mut recorder = Recorder::begin(log, restored.book, flush);
        recorder.place = restored.stop.place();
        recorder.last = restored.last;
        recorder.written = recorder.place;
        recorder.log.truncate(recorder.place)?;
        Ok(recorder)
    }

    fn begin(log: W, book: Book, flush: Flush) -> Recorder<W> {
        Recorder {
            book,
            log,
            flush,
            time: 0,
            written: 0,
            gathered: Vec::new(),
            records: 0,
            place: 0,
            last: [0; CHECK_LEN],
            failed: false,
        }
    }

    /// Sets the arrival time of the calls that follow, in a unit of your own; 0 at first.
    pub fn at(&mut self, time: u64) -> &mut Recorder<W> {
        self.time = time;
        self
    }

    /// The book, for reads that are not logged.
    pub fn book(&self) -> &Book {
        &self.book
    }

    /// The log's length with the records of all calls so far.
    pub fn place(&self) -> u64 {
        self.place
    }

    /// What the log is written to.
    pub fn get_ref(&self) -> &W {
        &self.log
    }

    /// What the log is written to, to be mended; whoever writes to it damages the log.
    pub fn get_mut(&mut self) -> &mut W {
        &mut self.log
    }

    /// Writes all records that are gathered.
    pub fn flush(&mut self) -> Result<(), LogError> {
        self.usable()?;
        self.write()
    }

    /// Writes all records that are gathered, and syncs the log.
    pub fn sync(&mut self) -> Result<(), LogError> {
        self.flush()?;
        self.note(|recorder| recorder.log.sync())
    }

    /// After a write that failed: cuts the log back to the calls that were carried out, and writes what
    /// is missing of them. If that succeeds, calls are taken again.
    pub fn retry(&mut self) -> Result<(), LogError> {
        if self.written > self.place {
            self.log.truncate(self.place)?;
            self.written = self.place;
        }
        self.write()?;
        self.failed = false;
        Ok(())
    }

    /// The book as it is, with its place in the log, which is synced first.
    pub fn checkpoint(&mut self) -> Result<Checkpoint, LogError> {
        self.sync()?;
        Ok(Checkpoint {
            book: self.book.clone(),
            place: self.place,
            last: self.last,
        })
    }

    /// Writes all records that are gathered, and gives back book and log. Without it, records that are
    /// gathered are lost.
    pub fn finish(mut self) -> Result<(Book, W), LogError> {
        self.flush()?;
        Ok((self.book, self.log))
    }

    fn usable(&self) -> Result<(), LogError> {
        match self.failed {
            true => Err(LogError::Failed),
            false => Ok(()),
        }
    }

    /// Appends a call, which is to be carried out next.
    pub(super) fn append(&mut self, call: &Call) -> Result<(), LogError> {
        self.usable()?;
        if call.lent().len() > LENT_MAX {
            return Err(LogError::TooLong);
        }
        call.write(self.time, &mut self.gathered);
        self.records += 1;
        let is_due = self.flush.is_due(self.records) || self.gathered.len() >= GATHERED_MAX;
        self.finish_record(is_due)
    }

    /// A record, or the head, was gathered: counts it in, once it is written if that is due.
    fn finish_record(&mut self, is_due: bool) -> Result<(), LogError> {
        let place = self.written + self.gathered.len() as u64;
        let last = self.gathered.last_chunk().copied().unwrap_or_default();
        if is_due {
            self.write()?;
        }
        (self.place, self.last) = (place, last);
        Ok(())
    }

    /// Gives the log what is gathered.
    fn write(&mut self) -> Result<(), LogError> {
        self.note(|recorder| {
            recorder.write_gathered()?;
            recorder.log.flush()?;
            if recorder.flush.syncs() {
                recorder.log.sync()?;
            }
            recorder.records = 0;
            Ok(())
        })
    }

    fn write_gathered(&mut self) -> io::Result<()> {
        while !self.gathered.is_empty() {
            match self.log.write(&self.gathered) {
                Ok(0) => return Err(ErrorKind::WriteZero.into()),
                Ok(len) => {
                    self.gathered.drain(..len);
                    self.written += len as u64;
                }
                Err(error) if error.kind() == ErrorKind::Interrupted => {}
                Err(error) => return Err(error),
            }
        }
        Ok(())
    }

    /// If this fails, a record that is not counted in is forgotten, and further calls are refused.
    fn note(&mut self, write: impl FnOnce(&mut Self) -> io::Result<()>) -> Result<(), LogError> {
        let done = write(self);
        if done.is_err() {
            self.failed = true;
            let kept = self.place.saturating_sub(self.written);
            self.gathered.truncate(kept as usize);
        }
        Ok(done?)
    }
}
