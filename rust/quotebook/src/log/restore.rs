//! A book from its log.

use std::io::{self, Read};

use super::window::{More, Window};
use super::{Answers, Head, LogError, Stop, CHECK_LEN, HEAD_LEN};
use crate::book::Book;
use crate::lent;
use crate::number::Number;

/// The answers of a piece of a log are written here, and counted.
const OUTPUT_LEN: usize = 1 << 16;

/// A book that a log gave.
#[derive(Clone, PartialEq, Eq, Debug)]
pub struct Restored {
    /// The book, as it was behind the last whole record.
    pub book: Book,
    /// The log's head.
    pub head: Head,
    /// How the log ended, and where its last whole record does.
    pub stop: Stop,
    /// The calls that were carried out.
    pub calls: u64,
    /// The bytes of the log before the place where it stopped.
    pub(super) last: [u8; CHECK_LEN],
}

impl Book {
    /// Rebuilds a book from its log, which is read in pieces. What stands behind a cut or damaged record
    /// is not read; [`Restored::stop`] tells.
    ///
    /// ```
    /// use quotebook::log::{Flush, Recorder, Stop};
    /// use quotebook::Book;
    ///
    /// # fn main() -> Result<(), Box<dyn std::error::Error>> {
    /// let mut recorder = Recorder::new(Vec::new(), 1, Flush::Each)?;
    /// recorder.add_symbol("ZT", 100, b'N')?;
    /// let (book, mut log) = recorder.finish()?;
    /// log.extend([0, 0]); // a record of which two bytes were written
    /// let restored = Book::restore(&log[..])?;
    /// assert_eq!(restored.book, book);
    /// assert_eq!((restored.calls, restored.stop), (1, Stop::Cut(49)));
    /// # Ok(())
    /// # }
    /// ```
    pub fn restore(log: impl Read) -> Result<Restored, LogError> {
        let mut window = Window::new(log);
        window.hold(HEAD_LEN)?;
        let head = lent::log_head(window.bytes()).ok_or(LogError::NoHead)?;
        window.pass(HEAD_LEN);
        let book = Book::new(u32::from(head.n))?;
        Ok(replay(book, head, &mut window)?)
    }
}

/// Rebuilds a book from a log that lies in memory whole.
pub fn restore(log: &[u8]) -> Result<Restored, LogError> {
    let head = lent::log_head(log).ok_or(LogError::NoHead)?;
    let mut book = Book::new(u32::from(head.n))?;
    let mut output = vec![0; OUTPUT_LEN];
    let mut calls = 0;
    let mut told = lent::restore(book.memory(), log, &mut output);
    loop {
        calls += Answers::new(&output[..told.written]).count() as u64;
        if told.number != Number::LogRoom {
            break;
        }
        told = lent::replay(book.memory(), log, told.place, &mut output);
    }
    let last = log[..told.place].last_chunk();
    Ok(Restored {
        book,
        head,
        stop: Stop::from_number(told.number, told.place as u64),
        calls,
        last: *last.expect("the head stands before the place"),
    })
}

/// Carries out the rest of a log on a book. A record that the window's end cuts is read again with more
/// bytes behind it.
pub(super) fn replay<R: Read>(
    mut book: Book,
    head: Head,
    window: &mut Window<R>,
) -> io::Result<Restored> {
    let mut output = vec![0; OUTPUT_LEN];
    let mut calls = 0;
    let stop = loop {
        let told = lent::replay(book.memory(), window.bytes(), 0, &mut output);
        calls += Answers::new(&output[..told.written]).count() as u64;
        window.pass(told.place);
        match told.number {
            Number::LogRoom => {}
            Number::Done | Number::LogCut => match window.more()? {
                More::Read => {}
                More::Ended => break Stop::from_number(told.number, window.place()),
                More::Full => break window.stop_at_long()?,
            },
            _ => break Stop::from_number(told.number, window.place()),
        }
    };
    Ok(Restored {
        book,
        head,
        stop,
        calls,
        last: window.last(),
    })
}
