//! The part of a block that goes to some books, and their answers.

use quotebook::lent::{ANSWER_LEN, BLOCK_MAX, MESSAGES_MAX};
use quotebook::{Number, Report};

/// A block's messages for the books of one thread: those of one book side by side, each book's in the
/// order of the block. The books' answers come back in it.
pub struct Portion {
    /// Which block this is of, as a shelf over threads counts them.
    pub block: u64,
    /// The letter of the line that the block came on.
    pub letter: u8,
    /// Whether the message goes to every book: FINRA Open or Close, alone in its block.
    pub to_all: bool,
    /// The books that have messages here.
    pub parts: Vec<Part>,
    /// The messages end to end, and the length of each.
    pub bytes: Vec<u8>,
    pub lengths: Vec<u32>,
    /// The place of each message in its block.
    places: Vec<u8>,
    /// Code and flags of each message.
    answers: Vec<[u8; 2]>,
    /// The flags of all books, of a message that goes to every book.
    flags: u8,
    /// How many messages were accepted, partly accepted and rejected.
    counts: [u32; 3],
    /// Whether a book refused its messages, which only one that is damaged does.
    pub refused: bool,
}

/// The messages of one book.
pub struct Part {
    pub book: usize,
    pub messages: usize,
    pub bytes: usize,
}

impl Portion {
    /// An empty portion with room for any block, so that filling it allocates nothing.
    pub fn new() -> Portion {
        Portion {
            block: 0,
            letter: 0,
            to_all: false,
            parts: Vec::with_capacity(MESSAGES_MAX),
            bytes: Vec::with_capacity(BLOCK_MAX),
            lengths: Vec::with_capacity(MESSAGES_MAX),
            places: Vec::with_capacity(MESSAGES_MAX),
            answers: Vec::with_capacity(MESSAGES_MAX),
            flags: 0,
            counts: [0; 3],
            refused: false,
        }
    }

    pub fn is_empty(&self) -> bool {
        self.lengths.is_empty()
    }

    pub fn clear(&mut self) {
        self.to_all = false;
        self.parts.clear();
        self.bytes.clear();
        self.lengths.clear();
        self.places.clear();
        self.answers.clear();
        self.flags = 0;
        self.counts = [0; 3];
        self.refused = false;
    }

    /// Begins the messages of another book.
    #[inline]
    pub fn begin(&mut self, book: usize) {
        self.parts.push(Part {
            book,
            messages: 0,
            bytes: 0,
        });
    }

    /// Adds a message of the book that was begun, with its place in the block.
    #[inline]
    pub fn add(&mut self, place: usize, message: &[u8]) {
        self.letter = message[2];
        self.bytes.extend_from_slice(message);
        self.lengths.push(message.len() as u32);
        self.places.push(place as u8);
        if let Some(part) = self.parts.last_mut() {
            part.messages += 1;
            part.bytes += message.len();
        }
    }

    /// Notes what a book answered to the next messages.
    #[inline]
    pub fn note(&mut self, report: &Report, answer: &[u8; ANSWER_LEN]) {
        self.refused |= report.number != Number::Done;
        if self.to_all {
            self.flags |= answer[2];
            return;
        }
        let (answers, _) = answer.as_chunks();
        let told = answers[..report.messages()].iter();
        self.answers
            .extend(told.map(|&[_, code, flags, _]| [code, flags]));
        let counts = [report.accepted, report.partly, report.rejected];
        for (sum, count) in self.counts.iter_mut().zip(counts) {
            *sum += count;
        }
    }

    /// Puts the books' answers in the place of the front book's: it listed none of these symbols and
    /// rejected each of the messages. FINRA Open and Close it accepted, and only flags are added.
    #[inline]
    pub fn merge(&self, report: &mut Report, answer: &mut [u8]) {
        if self.to_all {
            answer[2] |= self.flags;
            return;
        }
        for (&place, told) in self.places.iter().zip(&self.answers) {
            let at = 4 * usize::from(place);
            answer[at + 1..at + 3].copy_from_slice(told);
        }
        let [accepted, partly, rejected] = self.counts;
        report.rejected -= self.places.len() as u32;
        report.accepted += accepted;
        report.partly += partly;
        report.rejected += rejected;
    }
}
