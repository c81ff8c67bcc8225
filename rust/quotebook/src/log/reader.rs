//! The records of a log that is read from a file, or from anything else.

use std::io::{self, Read, Seek};

use super::record::entry;
use super::window::Window;
use super::{Head, LogError, Record, Stop, HEAD_LEN};

/// Reads the records of a log one by one. It holds some of the log's bytes at a time: 64 KiB, or the
/// longest record up to [`RECORD_MAX`](super::RECORD_MAX).
///
/// ```
/// use quotebook::log::{Call, Head, LogReader, Stop};
///
/// # fn main() -> Result<(), Box<dyn std::error::Error>> {
/// let mut log = Head::new(3).to_bytes().to_vec();
/// Call::StartDay.write(8, &mut log);
/// let mut reader = LogReader::new(&log[..])?;
/// assert_eq!(reader.head().n, 3);
/// while let Some(record) = reader.read()? {
///     assert_eq!((record.place, record.time, record.call), (16, 8, Call::StartDay));
/// }
/// assert_eq!(reader.stop(), Some(Stop::End(33)));
/// # Ok(())
/// # }
/// ```
#[derive(Debug)]
pub struct LogReader<R> {
    head: Head,
    window: Window<R>,
    /// The length of the record that was given last: it is still held.
    given: usize,
    stop: Option<Stop>,
}

impl<R: Read> LogReader<R> {
    /// Reads the head of a log.
    pub fn new(input: R) -> Result<LogReader<R>, LogError> {
        let mut window = Window::new(input);
        window.hold(HEAD_LEN)?;
        let head = Head::read(window.bytes()).ok_or(LogError::NoHead)?;
        Ok(LogReader {
            head,
            window,
            given: HEAD_LEN,
            stop: None,
        })
    }

    /// The log's head.
    pub fn head(&self) -> Head {
        self.head
    }

    /// The next record; none where reading stops. A whole record over
    /// [`RECORD_MAX`](super::RECORD_MAX) is an error, and the next call goes on behind it.
    pub fn read(&mut self) -> io::Result<Option<Record<'_>>> {
        self.window.pass(self.given);
        self.given = 0;
        if self.stop.is_none() {
            self.stop = self.window.hold_record()?;
        }
        if self.stop.is_some() {
            return Ok(None);
        }
        match entry(self.window.bytes(), self.window.place()) {
            Ok(record) => {
                self.given = (record.next - record.place) as usize;
                Ok(Some(record))
            }
            Err(stop) => {
                self.stop = Some(stop);
                Ok(None)
            }
        }
    }

    /// How reading stopped; none before [`read`](LogReader::read) has given none.
    pub fn stop(&self) -> Option<Stop> {
        self.stop
    }
}

impl<R: Read + Seek> LogReader<R> {
    /// Goes on at a place where a record begins, such as a checkpoint's.
    pub fn seek(&mut self, place: u64) -> io::Result<()> {
        self.window.seek(place)?;
        (self.given, self.stop) = (0, None);
        Ok(())
    }
}
