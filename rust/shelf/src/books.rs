//! The books of one thread: each is given its messages in a block of its own.

use std::ops::Range;

use quotebook::lent::{self, ANSWER_LEN, BLOCK_MAX};
use quotebook::{Book, Refusal};

use crate::portion::Portion;

/// A book has a line for each letter, since of a line's record a message reads the letter alone: A is
/// line 0.
const LETTERS: usize = 26;
const PROCESSOR: u8 = b'S';

/// A book that lists some of the symbols, and the number that each of its lines expects.
pub struct Held {
    pub book: Book,
    expected: [u32; LETTERS],
}

impl Held {
    /// A book for n symbols, n 1 to 64, with its lines open and its day closed.
    pub fn new(n: u32) -> Result<Held, Refusal> {
        let mut book = Book::new(n)?;
        for letter in (b'A'..=b'Z').filter(|&letter| letter != PROCESSOR) {
            book.open_line(line_of(letter) as u32, letter)?;
        }
        Ok(Held {
            book,
            expected: [1; LETTERS],
        })
    }
}

#[inline]
fn line_of(letter: u8) -> usize {
    usize::from(letter - b'A')
}

/// Books, and the buffers for a block to one of them and for its answer.
pub struct Books {
    pub held: Vec<Held>,
    block: [u8; BLOCK_MAX],
    answer: [u8; ANSWER_LEN],
}

impl Books {
    pub fn new(held: Vec<Held>) -> Books {
        Books {
            held,
            block: [0; BLOCK_MAX],
            answer: [0; ANSWER_LEN],
        }
    }

    /// Gives every book its messages of a block, and notes the answers.
    #[inline]
    pub fn take(&mut self, portion: &mut Portion) {
        if portion.to_all {
            for book in 0..self.held.len() {
                self.hand_on(book, portion, 0..1, 0..portion.bytes.len());
            }
            return;
        }
        let (mut message, mut byte) = (0, 0);
        for part in 0..portion.parts.len() {
            let part = &portion.parts[part];
            let (messages, bytes) = (message + part.messages, byte + part.bytes);
            self.hand_on(part.book, portion, message..messages, byte..bytes);
            (message, byte) = (messages, bytes);
        }
    }

    /// Writes one book's messages as the block that its line expects next, and has it taken.
    #[inline]
    fn hand_on(
        &mut self,
        book: usize,
        portion: &mut Portion,
        messages: Range<usize>,
        bytes: Range<usize>,
    ) {
        let line = line_of(portion.letter);
        let Held { book, expected } = &mut self.held[book];
        let written = lent::write_block(
            &portion.bytes[bytes],
            &portion.lengths[messages],
            expected[line],
            &mut self.block,
        );
        let block = &self.block[..written.len];
        let report = book.take_block_into(line as u32, block, &mut self.answer);
        expected[line] = report.expected;
        portion.note(&report, &self.answer);
    }

    /// Start of Day in every book, which begins every line at 1. Whether all did so.
    pub fn start_day(&mut self) -> bool {
        let started = self.held.iter_mut().map(|held| {
            held.expected = [1; LETTERS];
            held.book.start_day().is_ok()
        });
        started.fold(true, |all, done| all & done)
    }

    /// End of Day in every book. Whether all did so.
    pub fn end_day(&mut self) -> bool {
        let ended = self.held.iter_mut().map(|held| held.book.end_day().is_ok());
        ended.fold(true, |all, done| all & done)
    }

    /// Whether the memory of every book is a book's.
    pub fn are_sound(&self) -> bool {
        self.held
            .iter()
            .all(|held| lent::is_book(held.book.as_bytes()))
    }
}
