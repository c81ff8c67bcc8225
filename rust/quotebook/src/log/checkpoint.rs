//! A book's bytes with its place in the log.

use std::fs::{self, File};
use std::io::{self, Read, Seek, Write};
use std::path::Path;

use super::restore::replay;
use super::window::Window;
use super::{check, Head, LogError, Restored, CHECK_LEN, HEAD_LEN, REQUESTS};
use crate::book::Book;
use crate::lent;

const MARK: [u8; 8] = *b"QBOOKCHK";
const VERSION: u8 = 1;
/// The bytes before the book's.
const FRONT_LEN: usize = 32;

/// A book and the place in its log where the calls begin that it has not seen. It saves replaying those
/// before.
///
/// ```
/// use std::io::Cursor;
/// use quotebook::log::{Checkpoint, Flush, Recorder};
///
/// # fn main() -> Result<(), Box<dyn std::error::Error>> {
/// let mut recorder = Recorder::new(Vec::new(), 1, Flush::Each)?;
/// recorder.add_symbol("ZT", 100, b'N')?;
/// let kept = recorder.checkpoint()?.to_bytes();
/// recorder.start_day()?;
/// let (book, log) = recorder.finish()?;
/// let restored = Checkpoint::from_bytes(&kept)?.restore(Cursor::new(log))?;
/// assert_eq!(restored.book, book);
/// assert_eq!(restored.calls, 1);
/// # Ok(())
/// # }
/// ```
#[derive(Clone, PartialEq, Eq, Debug)]
pub struct Checkpoint {
    pub(super) book: Book,
    pub(super) place: u64,
    /// The log's bytes before the place.
    pub(super) last: [u8; CHECK_LEN],
}

impl Checkpoint {
    /// The book.
    pub fn book(&self) -> &Book {
        &self.book
    }

    /// The place in the log: all calls before it have been carried out on the book.
    pub fn place(&self) -> u64 {
        self.place
    }

    /// The form of docs/LOG.md.
    pub fn to_bytes(&self) -> Vec<u8> {
        let book = self.book.as_bytes();
        let mut bytes = Vec::with_capacity(FRONT_LEN + book.len() + CHECK_LEN);
        bytes.extend(MARK);
        bytes.extend([VERSION, 0]);
        bytes.extend(REQUESTS.to_be_bytes());
        bytes.extend(self.place.to_be_bytes());
        bytes.extend(self.last);
        bytes.extend((book.len() as u64).to_be_bytes());
        bytes.extend(book);
        let check = check(&bytes);
        bytes.extend(check.to_be_bytes());
        bytes
    }

    /// The checkpoint whose bytes these are: whole, and of a library that follows the same requests.
    pub fn from_bytes(bytes: &[u8]) -> Result<Checkpoint, LogError> {
        let read = || {
            let (front, book): (&[u8; FRONT_LEN], _) = bytes.split_first_chunk()?;
            let (book, _) = book.split_last_chunk::<CHECK_LEN>()?;
            let (_, place) = front[..20].split_last_chunk()?;
            let (_, last) = front[..24].split_last_chunk()?;
            let checkpoint = Checkpoint {
                book: Book::from_bytes(book).ok()?,
                place: u64::from_be_bytes(*place),
                last: *last,
            };
            (checkpoint.to_bytes() == bytes).then_some(checkpoint)
        };
        read().ok_or(LogError::NoCheckpoint)
    }

    /// Keeps the checkpoint in a file. It is written beside that file and then takes its name, so that a
    /// crash leaves the old one or the new one.
    pub fn save(&self, path: impl AsRef<Path>) -> io::Result<()> {
        let path = path.as_ref();
        let mut beside = path.as_os_str().to_owned();
        beside.push(".new");
        let mut file = File::create(&beside)?;
        file.write_all(&self.to_bytes())?;
        file.sync_all()?;
        fs::rename(&beside, path)
    }

    /// The checkpoint that a file holds.
    pub fn load(path: impl AsRef<Path>) -> Result<Checkpoint, LogError> {
        Checkpoint::from_bytes(&fs::read(path)?)
    }

    /// Rebuilds the book from the checkpoint and the calls behind its place. The log is one that holds
    /// all calls, from its head on.
    pub fn restore(self, log: impl Read + Seek) -> Result<Restored, LogError> {
        let mut window = Window::new(log);
        window.hold(HEAD_LEN)?;
        let head: Head = lent::log_head(window.bytes()).ok_or(LogError::NoHead)?;
        let len = lent::book_len(u32::from(head.n));
        if len != Some(self.book.as_bytes().len()) || self.place < HEAD_LEN as u64 {
            return Err(LogError::OtherLog);
        }
        window.seek(self.place - CHECK_LEN as u64)?;
        window.hold(CHECK_LEN)?;
        if !window.bytes().starts_with(&self.last) {
            return Err(LogError::OtherLog);
        }
        window.pass(CHECK_LEN);
        Ok(replay(self.book, head, &mut window)?)
    }
}
