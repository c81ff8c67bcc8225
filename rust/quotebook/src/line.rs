//! A line's record, as it stands in a book.

/// Where the lines stand in a book, the length of one, and how many there are (docs/LAYOUT.md).
const LINES_AT: usize = 15;
const LINE_LEN: usize = 13;
const LINES: usize = 64;

/// What a book holds of an open line.
#[derive(Clone, Copy, PartialEq, Eq, Debug)]
pub struct LineRecord {
    /// The letter that it was opened for.
    pub letter: u8,
    /// The sequence number that it expects next.
    pub expected: u32,
    /// How many messages came since Start of Day, rejected ones included.
    pub count: u64,
}

impl LineRecord {
    /// The record of a line of a book; a letter that is not A to Z without S is that of a line that is
    /// not open.
    pub(crate) fn in_book(book: &[u8], line: u32) -> Option<LineRecord> {
        let line = usize::try_from(line).ok().filter(|&line| line < LINES)?;
        let record = book.get(LINES_AT + line * LINE_LEN..)?.first_chunk()?;
        let &[letter, a, b, c, d, count @ ..]: &[u8; LINE_LEN] = record;
        let is_open = letter.is_ascii_uppercase() && letter != b'S';
        is_open.then_some(LineRecord {
            letter,
            expected: u32::from_be_bytes([a, b, c, d]),
            count: u64::from_be_bytes(count),
        })
    }
}
