//! The calls on lent memory, for those who keep a book elsewhere than in a [`Book`](crate::Book), and
//! the writer of blocks.
//!
//! Any bytes of any length may be lent. A refused call changes no byte. In every buffer the bytes
//! behind those that a call fills keep their contents.

use crate::ffi;
use crate::line::LineRecord;
use crate::log::{Head, Replayed};
use crate::number::Number;
use crate::order::Tried;
use crate::protection::Protected;
use crate::report::Report;
use crate::run::Converted;
use crate::snapshot::SnapshotSize;
use crate::writer::Written;

/// The length of the longest block.
pub const BLOCK_MAX: usize = 1000;
/// The most messages in a block.
pub const MESSAGES_MAX: usize = 45;
/// The shortest answer buffer: four bytes for each of 45 messages.
pub const ANSWER_LEN: usize = 180;
/// The length of a publication.
pub const PUBLICATION_LEN: usize = 96;
/// The length of the longest run of blocks that a venue's block is converted to.
pub const RUN_MAX: usize = 3600;
/// The length of a symbol.
pub const SYMBOL_LEN: usize = 11;
/// The length of a step of an order: letter 1, price 8, lots 4.
pub const STEP_LEN: usize = 13;
/// The shortest output of an order: 25 steps.
pub const STEPS_LEN: usize = 325;
/// The shares of an allowance: one for each line.
pub const SHARES_LEN: usize = 64;

fn number(byte: u8) -> Number {
    Number::try_from(byte).expect("the library answers numbers of document 01")
}

/// The library's version, 10000 * major + 100 * minor + patch; this crate's is `CARGO_PKG_VERSION`.
pub fn version() -> u32 {
    ffi::version()
}

/// The bytes of a book for n symbols; none if n is not 1 to 64.
pub fn book_len(n: u32) -> Option<usize> {
    let len = ffi::book_len(n) as usize;
    (len > 0).then_some(len)
}

/// Makes a book of memory of any bytes: no symbols, no lines, a closed day.
pub fn make(book: &mut [u8], n: u32) -> Number {
    number(ffi::make(book, n))
}

/// Adds a symbol, eleven bytes, with its round lot in shares and its primary letter, whose line may
/// halt it.
pub fn add_symbol(book: &mut [u8], symbol: &[u8], round_lot: u32, primary: u8) -> Number {
    number(ffi::add_symbol(book, symbol, round_lot, primary))
}

/// Opens a line, 0 to 63, for a letter.
pub fn open_line(book: &mut [u8], line: u32, letter: u8) -> Number {
    number(ffi::open_line(book, line, letter))
}

/// Start of Day.
pub fn start_day(book: &mut [u8]) -> Number {
    number(ffi::start_day(book))
}

/// End of Day.
pub fn end_day(book: &mut [u8]) -> Number {
    number(ffi::end_day(book))
}

/// Sets an allowance of blocks for each tick, 1 to 255, with a share for each of the 64 lines, and starts
/// a tick.
pub fn set_allowance(book: &mut [u8], blocks: u32, shares: &[u8]) -> Number {
    number(ffi::set_allowance(book, blocks, shares))
}

/// Starts the next tick. Without an allowance nothing changes.
pub fn tick(book: &mut [u8]) -> Number {
    number(ffi::tick(book))
}

/// Takes a block on a line. Of a taken block's message i, the bytes 4i to 4i + 3 of `answer` are
/// those of an [`Answer`](crate::Answer).
pub fn take_block(book: &mut [u8], line: u32, block: &[u8], answer: &mut [u8]) -> Report {
    let mut fields = [0; 7];
    let answered = ffi::take_block(book, line, block, answer, &mut fields);
    Report::from_fields(number(answered), fields)
}

/// Whether these bytes are a book: any call on others answers 1.
pub fn is_book(book: &[u8]) -> bool {
    read(book, &[], &mut []) != Number::NoBook
}

/// The record of an open line; none if the bytes are no book, or the line is above 63 or not open.
pub fn line(book: &[u8], line: u32) -> Option<LineRecord> {
    is_book(book)
        .then(|| LineRecord::in_book(book, line))
        .flatten()
}

/// Reads a symbol's publication into the first 96 bytes of the buffer.
pub fn read(book: &[u8], symbol: &[u8], publication: &mut [u8]) -> Number {
    number(ffi::read(book, symbol, publication))
}

/// Whether a national candidate of a symbol bids a price or more (side mark B), or offers it or less
/// (S). No, while the symbol is halted.
pub fn is_protected(book: &[u8], symbol: &[u8], side: u8, price: u64) -> Protected {
    let mut fields = [0; 3];
    let answered = ffi::is_protected(book, symbol, side, price, &mut fields);
    Protected::from_fields(number(answered), fields)
}

/// Tells how many bytes [`convert`] writes for a venue's own block (source document 000, without its
/// separator).
pub fn convert_len(book: &[u8], block: &[u8]) -> Converted {
    let mut fields = [0; 2];
    let answered = ffi::convert_len(book, block, &mut fields);
    Converted::from_fields(number(answered), fields)
}

/// Writes a venue's own block as a run of blocks for [`take_block`], end to end, each with its length
/// in its bytes 2-3. Round sizes become round lots of the symbols that are listed.
pub fn convert(book: &[u8], block: &[u8], output: &mut [u8]) -> Converted {
    let mut fields = [0; 2];
    let answered = ffi::convert(book, block, output, &mut fields);
    Converted::from_fields(number(answered), fields)
}

/// Tells how many blocks and bytes a symbol's snapshot has.
pub fn snapshot_len(book: &[u8], symbol: &[u8]) -> SnapshotSize {
    let mut fields = [0; 2];
    let answered = ffi::snapshot_len(book, symbol, &mut fields);
    SnapshotSize::from_fields(number(answered), fields)
}

/// Writes a symbol's snapshot at the output's front; [`SNAPSHOT_MAX`](crate::snapshot::SNAPSHOT_MAX)
/// bytes always suffice.
pub fn snapshot(book: &[u8], symbol: &[u8], output: &mut [u8]) -> SnapshotSize {
    let mut fields = [0; 2];
    let answered = ffi::snapshot(book, symbol, output, &mut fields);
    SnapshotSize::from_fields(number(answered), fields)
}

/// Plays an order of so many round lots, which buys at the offers (side mark B) or sells at the bids
/// (S). The first 13 bytes for each step are filled: those of a [`Step`](crate::Step).
pub fn try_order(book: &[u8], symbol: &[u8], side: u8, lots: u32, steps: &mut [u8]) -> Tried {
    let mut fields = [0; 3];
    let answered = ffi::try_order(book, symbol, side, lots, steps, &mut fields);
    Tried::from_fields(number(answered), fields)
}

/// Writes the block that carries these messages, laid end to end with a length for each, under a
/// sequence number. It needs 10 bytes, 2 for each message, and theirs; [`BLOCK_MAX`] always suffice.
pub fn write_block(messages: &[u8], lengths: &[u32], sequence: u32, block: &mut [u8]) -> Written {
    let mut fields = [0; 2];
    let answered = ffi::write_block(messages, lengths, sequence, block, &mut fields);
    let [_, len] = fields;
    Written {
        number: number(answered),
        len: len as usize,
    }
}

/// The head that a log begins with; none if it begins with anything else (number 90).
pub fn log_head(log: &[u8]) -> Option<Head> {
    let mut fields = [0; 3];
    let answered = ffi::log_head(log, &mut fields);
    let [_, n, requests] = fields;
    (number(answered) == Number::Done).then_some(Head {
        n: n as u8,
        requests: requests as u16,
    })
}

/// Carries out the calls of a log's records from a place on, and writes the
/// [`Answers`](crate::log::Answers) one behind the other. It stops at the log's end
/// ([`Number::Done`]), at a record that the log's end cuts or that is damaged, or where the output may
/// be too short for one more answer ([`Number::LogRoom`]): then another call goes on from that place.
pub fn replay(book: &mut [u8], log: &[u8], from: usize, output: &mut [u8]) -> Replayed {
    let mut fields = [0; 3];
    let answered = ffi::replay(book, log, from, output, &mut fields);
    Replayed::from_fields(number(answered), fields)
}

/// Makes the book that a log's head tells, in memory of its length, and does what [`replay`] does from
/// the first record on. Without a head, or with another length ([`Number::Make`]), nothing is done.
pub fn restore(book: &mut [u8], log: &[u8], output: &mut [u8]) -> Replayed {
    let mut fields = [0; 3];
    let answered = ffi::restore(book, log, output, &mut fields);
    Replayed::from_fields(number(answered), fields)
}

#[cfg(test)]
mod tests {
    use super::*;

    /// The call writes all seven numbers of a report, and its result is the first.
    #[test]
    fn a_report_is_filled() {
        let mut book = vec![0; book_len(1).expect("one symbol")];
        assert_eq!(make(&mut book, 1), Number::Done);
        assert_eq!(open_line(&mut book, 5, b'N'), Number::Done);
        let filled = |line, block: &[u8], room| {
            let mut fields = [u64::MAX; 7];
            let result = ffi::take_block(
                &mut book.clone(),
                line,
                block,
                &mut vec![0; room],
                &mut fields,
            );
            assert_eq!(u64::from(result), fields[0]);
            fields
        };
        // C T, which is taken while the day is closed.
        let mut integrity = vec![1, 1, 0, 32, 0, 0, 0, 1, 1, 20, 0, 12, b'C', b'T', b'N'];
        integrity.resize(32, 0);
        assert_eq!(filled(5, &integrity, 180), [0, 0, 1, 0, 1, 0, 0]);
        assert_eq!(filled(5, &[], 180), [30, 0, 1, 0, 0, 0, 0]);
        assert_eq!(filled(4, &[], 180), [21, 0, 0, 0, 0, 0, 0]);
        assert_eq!(filled(5, &[], 179), [9, 0, 0, 0, 0, 0, 0]);
    }

    /// A query writes its three numbers, whatever they were, and its result is the first.
    #[test]
    fn a_querys_report_is_filled() {
        let mut book = vec![0; book_len(1).expect("one symbol")];
        assert_eq!(make(&mut book, 1), Number::Done);
        let zt = b"ZT         ";
        assert_eq!(add_symbol(&mut book, zt, 100, b'N'), Number::Done);
        let filled = |book: &[u8], symbol: &[u8], side| {
            let mut fields = [u64::MAX; 3];
            let result = ffi::is_protected(book, symbol, side, 0, &mut fields);
            assert_eq!(u64::from(result), fields[0]);
            fields
        };
        assert_eq!(filled(&book, zt, b'B'), [0, 0, 26]);
        assert_eq!(filled(&book, zt, b'X'), [74, 0, 0]);
        assert_eq!(filled(&book, b"ZT", b'X'), [10, 0, 0]);
        assert_eq!(filled(&book[1..], zt, b'B'), [1, 0, 0]);
        assert_eq!(filled(&[], &[], 0), [1, 0, 0]);
    }

    /// A conversion writes both numbers of its report, whatever they were, and its result is the first.
    #[test]
    fn a_conversions_report_is_filled() {
        let mut book = vec![0; book_len(1).expect("one symbol")];
        assert_eq!(make(&mut book, 1), Number::Done);
        // Q P by N: IBM, 10.00 for 300 shares and 10.02 for 200.
        let block = [
            &[0, 0, 52, 0, 0, 0, 1, 1, 9, 29, 0, 42, b'Q', b'P', b'N'][..],
            &[
                0x6a, 0x0b, 0x14, 0x58, 0x39, 0xf5, 0xae, 0x8b, 1, 32, 32, 32, 32,
            ],
            &[0; 8],
            b"IBM  \x03\xe8\x01\x2c\x03\xea\x00\xc8 \0\0",
        ]
        .concat();
        let filled = |book: &[u8], block: &[u8], room| {
            let mut fields = [u64::MAX; 2];
            let result = match room {
                None => ffi::convert_len(book, block, &mut fields),
                Some(room) => ffi::convert(book, block, &mut vec![0; room], &mut fields),
            };
            assert_eq!(u64::from(result), fields[0]);
            fields
        };
        for room in [None, Some(72), Some(100)] {
            assert_eq!(filled(&book, &block, room), [0, 72]);
            assert_eq!(filled(&book, &block[1..], room), [78, 0]);
            assert_eq!(filled(&book[1..], &block, room), [1, 0]);
        }
        assert_eq!(filled(&book, &block, Some(71)), [80, 0]);
        assert_eq!(filled(&[], &[], Some(0)), [1, 0]);
    }

    /// The calls about a snapshot write both numbers, whatever they were.
    #[test]
    fn a_snapshots_size_is_filled() {
        let mut book = vec![0; book_len(1).expect("one symbol")];
        assert_eq!(make(&mut book, 1), Number::Done);
        let zt = b"ZT         ";
        assert_eq!(add_symbol(&mut book, zt, 100, b'N'), Number::Done);
        let told = |book: &[u8], symbol: &[u8]| {
            let mut fields = [u64::MAX; 2];
            (ffi::snapshot_len(book, symbol, &mut fields), fields)
        };
        assert_eq!(told(&book, zt), (0, [1, 194]));
        assert_eq!(told(&book, b"ZT"), (10, [0, 0]));
        assert_eq!(told(&book[1..], zt), (1, [0, 0]));
        assert_eq!(told(&[], &[]), (1, [0, 0]));
        let written = |book: &[u8], symbol: &[u8], room| {
            let mut fields = [u64::MAX; 2];
            let mut output = vec![0; room];
            (
                ffi::snapshot(book, symbol, &mut output, &mut fields),
                fields,
            )
        };
        assert_eq!(written(&book, zt, 194), (0, [1, 194]));
        assert_eq!(written(&book, zt, 193), (81, [0, 0]));
        assert_eq!(written(&book, zt, 0), (81, [0, 0]));
        assert_eq!(written(&book, b"ZT", 0), (10, [0, 0]));
        assert_eq!(written(&[], &[], 0), (1, [0, 0]));
    }

    /// Trying an order writes its three numbers, whatever they were, and its result is the first.
    #[test]
    fn an_orders_report_is_filled() {
        let mut book = vec![0; book_len(1).expect("one symbol")];
        assert_eq!(make(&mut book, 1), Number::Done);
        let zt = b"ZT         ";
        assert_eq!(add_symbol(&mut book, zt, 100, b'N'), Number::Done);
        let filled = |book: &[u8], symbol: &[u8], side, lots, room| {
            let mut fields = [u64::MAX; 3];
            let mut steps = vec![0xEE; room];
            let result = ffi::try_order(book, symbol, side, lots, &mut steps, &mut fields);
            assert_eq!(u64::from(result), fields[0]);
            assert!(steps.iter().all(|&byte| byte == 0xEE));
            fields
        };
        assert_eq!(filled(&book, zt, b'B', 7, STEPS_LEN), [0, 0, 7]);
        assert_eq!(filled(&book, zt, b'S', 7, STEPS_LEN - 1), [83, 0, 0]);
        assert_eq!(filled(&book, zt, b'S', 0, 0), [82, 0, 0]);
        assert_eq!(filled(&book, zt, b'X', 0, 0), [74, 0, 0]);
        assert_eq!(filled(&book, b"ZT", b'X', 0, 0), [10, 0, 0]);
        assert_eq!(filled(&book[1..], zt, b'B', 7, STEPS_LEN), [1, 0, 0]);
        assert_eq!(filled(&[], &[], 0, 0, 0), [1, 0, 0]);
    }

    /// The writer writes both numbers of its report, and its result is the first.
    #[test]
    fn a_writers_report_is_filled() {
        let filled = |messages: &[u8], lengths: &[u32], room| {
            let mut fields = [u64::MAX; 2];
            let result = ffi::write_block(messages, lengths, 1, &mut vec![0; room], &mut fields);
            assert_eq!(u64::from(result), fields[0]);
            fields
        };
        assert_eq!(filled(&[0; 20], &[20], 32), [0, 32]);
        assert_eq!(filled(&[], &[], 32), [71, 0]);
        assert_eq!(filled(&[b'C'; 40], &[20, 20], 54), [72, 0]);
        assert_eq!(filled(&[0; 20], &[20], 31), [73, 0]);
    }
}
