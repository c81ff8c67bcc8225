//! The part of a log that is held while it is read from front to back.

use std::io::{self, ErrorKind, Read, Seek, SeekFrom};

use super::{check_on, Stop, CHECK_LEN, CHECK_START, RECORD_MAX, RECORD_MIN};

/// The bytes held at first; a longer record makes it more.
const FIRST: usize = 1 << 16;

/// Bytes of a log, from a place on.
#[derive(Debug)]
pub(super) struct Window<R> {
    input: R,
    buffer: Vec<u8>,
    /// The bytes that are held.
    start: usize,
    end: usize,
    /// Where the first of them stands in the log.
    place: u64,
    /// The bytes before it: the check of the last record, or of the head.
    last: [u8; CHECK_LEN],
}

/// What asking for more bytes gave.
#[derive(Clone, Copy, PartialEq, Eq, Debug)]
pub(super) enum More {
    /// There are more.
    Read,
    /// The log has no more.
    Ended,
    /// As many are held as may be.
    Full,
}

impl<R: Read> Window<R> {
    /// The input is at the log's beginning.
    pub fn new(input: R) -> Window<R> {
        Window {
            input,
            buffer: vec![0; FIRST],
            start: 0,
            end: 0,
            place: 0,
            last: [0; CHECK_LEN],
        }
    }

    pub fn bytes(&self) -> &[u8] {
        &self.buffer[self.start..self.end]
    }

    pub fn place(&self) -> u64 {
        self.place
    }

    /// The last bytes of the records that were let go.
    pub fn last(&self) -> [u8; CHECK_LEN] {
        self.last
    }

    /// Lets go of whole records, or of the head.
    pub fn pass(&mut self, len: usize) {
        if let Some(&last) = self.bytes()[..len].last_chunk() {
            self.last = last;
        }
        self.skip(len);
    }

    fn skip(&mut self, len: usize) {
        self.start += len;
        self.place += len as u64;
    }

    /// Reads more bytes behind those that are held.
    pub fn more(&mut self) -> io::Result<More> {
        if self.start > 0 {
            self.buffer.copy_within(self.start..self.end, 0);
            self.end -= self.start;
            self.start = 0;
        }
        if self.end == self.buffer.len() {
            if self.end >= RECORD_MAX {
                return Ok(More::Full);
            }
            self.buffer.resize(2 * self.end, 0);
        }
        loop {
            match self.input.read(&mut self.buffer[self.end..]) {
                Ok(0) => return Ok(More::Ended),
                Ok(read) => {
                    self.end += read;
                    return Ok(More::Read);
                }
                Err(error) if error.kind() == ErrorKind::Interrupted => {}
                Err(error) => return Err(error),
            }
        }
    }

    /// Reads until so many bytes are held, or the log ends.
    pub fn hold(&mut self, len: usize) -> io::Result<()> {
        while self.bytes().len() < len && self.more()? == More::Read {}
        Ok(())
    }

    /// Reads until the first record is held, or the log ends. The stop is that of a record which is longer
    /// than the window may be.
    pub fn hold_record(&mut self) -> io::Result<Option<Stop>> {
        while self.bytes().len() < self.record_len().max(RECORD_MIN) {
            match self.more()? {
                More::Read => {}
                More::Ended => break,
                More::Full => return self.stop_at_long().map(Some),
            }
        }
        Ok(None)
    }

    /// The length that the first record tells.
    fn record_len(&self) -> usize {
        let len = self.bytes().first_chunk().copied().unwrap_or_default();
        u32::from_be_bytes(len) as usize
    }

    /// How reading stops at the first record, which is longer than the window may be: its bytes are
    /// read to its check. A whole one is an error; the next record is behind it.
    pub fn stop_at_long(&mut self) -> io::Result<Stop> {
        let place = self.place;
        let len = self.record_len();
        let mut left = len - CHECK_LEN;
        let mut check = CHECK_START;
        while left > 0 {
            let held = self.bytes().len();
            let passed = if held < left { held & !3 } else { left };
            check = check_on(check, &self.bytes()[..passed]);
            self.skip(passed);
            left -= passed;
            if left > 0 && self.more()? == More::Ended {
                return Ok(Stop::Cut(place));
            }
        }
        self.hold(CHECK_LEN)?;
        match self.bytes().first_chunk().copied() {
            None => Ok(Stop::Cut(place)),
            Some(last) if check != u32::from_be_bytes(last) => Ok(Stop::Damaged(place)),
            Some(_) => {
                self.skip(CHECK_LEN);
                let what = format!("the record at byte {place} has {len} bytes");
                Err(io::Error::new(ErrorKind::InvalidData, what))
            }
        }
    }
}

impl<R: Read + Seek> Window<R> {
    /// Goes on at another place of the log.
    pub fn seek(&mut self, place: u64) -> io::Result<()> {
        self.place = self.input.seek(SeekFrom::Start(place))?;
        (self.start, self.end) = (0, 0);
        Ok(())
    }
}
