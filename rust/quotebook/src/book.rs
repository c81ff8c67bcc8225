//! A book that owns its memory.

use std::fmt::{self, Debug, Formatter};

use crate::lent::{self, ANSWER_LEN, PUBLICATION_LEN, RUN_MAX, SHARES_LEN, STEPS_LEN, SYMBOL_LEN};
use crate::line::LineRecord;
use crate::message::filled_up;
use crate::number::{Number, Refusal};
use crate::order::{Order, Trial};
use crate::price::Price;
use crate::protection::{Protection, Side};
use crate::publication::Publication;
use crate::report::{Report, Taken};
use crate::run::Run;
use crate::snapshot::SNAPSHOT_MAX;

/// A quote book for up to 64 symbols.
///
/// Symbols are given as text or bytes; one under eleven bytes is filled up with spaces. Calls that
/// are refused change nothing and say why.
#[derive(Clone, PartialEq, Eq)]
pub struct Book {
    memory: Box<[u8]>,
}

impl Book {
    /// A book with room for n symbols, n 1 to 64: no symbols, no lines, a closed day.
    pub fn new(n: u32) -> Result<Book, Refusal> {
        let len = lent::book_len(n).unwrap_or(0);
        let mut memory = vec![0; len].into_boxed_slice();
        lent::make(&mut memory, n).result()?;
        Ok(Book { memory })
    }

    /// The book whose bytes [`as_bytes`](Book::as_bytes) gave. Bytes that are no book are refused
    /// ([`Number::NoBook`]). A copy is for the version that made it (docs/CHANGES.md).
    pub fn from_bytes(bytes: impl Into<Box<[u8]>>) -> Result<Book, Refusal> {
        let memory = bytes.into();
        if !lent::is_book(&memory) {
            Number::NoBook.result()?;
        }
        Ok(Book { memory })
    }

    /// Makes the book anew, also while its day is open: symbols, lines and quotes are forgotten. The
    /// memory keeps its length, so n has to be the same.
    pub fn make(&mut self, n: u32) -> Result<(), Refusal> {
        lent::make(&mut self.memory, n).result()
    }

    /// Adds a symbol with its round lot, 1, 10, 25, 50 or 100 shares, and its primary letter, A to Z
    /// without S: lines of that letter may halt it (T S), and no others.
    pub fn add_symbol(
        &mut self,
        symbol: impl AsRef<[u8]>,
        round_lot: u32,
        primary: u8,
    ) -> Result<(), Refusal> {
        let symbol = symbol_bytes(symbol);
        lent::add_symbol(&mut self.memory, &symbol, round_lot, primary).result()
    }

    /// Opens a line, 0 to 63, for a letter: A to Z without S. D is FINRA.
    pub fn open_line(&mut self, line: u32, letter: u8) -> Result<(), Refusal> {
        lent::open_line(&mut self.memory, line, letter).result()
    }

    /// Start of Day: empties all quotes, ends every halt, sets every line to its beginning and opens
    /// the day.
    pub fn start_day(&mut self) -> Result<(), Refusal> {
        lent::start_day(&mut self.memory).result()
    }

    /// End of Day: closes the day and keeps the quotes.
    pub fn end_day(&mut self) -> Result<(), Refusal> {
        lent::end_day(&mut self.memory).result()
    }

    /// Sets an allowance of blocks for each tick, 1 to 255, with a guaranteed share for each line,
    /// and starts a tick. What the blocks have above all shares is the spare, for any line. Start of
    /// Day keeps the allowance and what is charged; only [`make`](Book::make) takes it away.
    pub fn set_allowance(&mut self, blocks: u32, shares: &[u8; SHARES_LEN]) -> Result<(), Refusal> {
        lent::set_allowance(&mut self.memory, blocks, shares).result()
    }

    /// Starts the next tick: nothing is charged in it yet. Without an allowance nothing changes.
    pub fn tick(&mut self) -> Result<(), Refusal> {
        lent::tick(&mut self.memory).result()
    }

    /// Takes a block of up to 45 messages on a line.
    pub fn take_block(&mut self, line: u32, block: &[u8]) -> Result<Taken, Refusal> {
        let mut answer = [0; ANSWER_LEN];
        let report = self.take_block_into(line, block, &mut answer);
        Taken::new(report, answer)
    }

    /// Takes a block as [`take_block`](Book::take_block) does. The answers go into a buffer of at least
    /// 180 bytes: of a taken block's message i, the bytes 4i to 4i + 3 are those of an
    /// [`Answer`](crate::Answer).
    pub fn take_block_into(&mut self, line: u32, block: &[u8], answer: &mut [u8]) -> Report {
        lent::take_block(&mut self.memory, line, block, answer)
    }

    /// The record of a line: its letter, its next expected number and its count of messages. None if
    /// the line is above 63 or not open.
    pub fn line(&self, line: u32) -> Option<LineRecord> {
        lent::line(&self.memory, line)
    }

    /// Reads a symbol's publication.
    pub fn read(&self, symbol: impl AsRef<[u8]>) -> Result<Publication, Refusal> {
        let mut publication = [0; PUBLICATION_LEN];
        lent::read(&self.memory, &symbol_bytes(symbol), &mut publication).result()?;
        Ok(Publication::from_bytes(&publication))
    }

    /// Whether a price is protected: does an exchange, or FINRA, bid it or more, or offer at it or
    /// less? A day need not be open.
    pub fn is_protected(
        &self,
        symbol: impl AsRef<[u8]>,
        side: Side,
        price: Price,
    ) -> Result<Protection, Refusal> {
        let symbol = symbol_bytes(symbol);
        let told = lent::is_protected(&self.memory, &symbol, side.mark(), price.0);
        Protection::new(side, price, told)
    }

    /// A venue's own block (source document 000, without its separator) as a run of blocks for
    /// [`take_block`](Book::take_block).
    ///
    /// Round sizes in shares become round lots of the symbols that are listed; the rest is dropped. The
    /// book is read for that alone.
    ///
    /// The venue numbers its blocks, and a book the messages: behind a run of several messages the
    /// venue's next block is a duplicate (docs/DECISIONS.md). `examples/venue_line.rs` shows a way
    /// round it.
    pub fn convert(&self, block: &[u8]) -> Result<Run, Refusal> {
        let mut output = [0; RUN_MAX];
        let converted = lent::convert(&self.memory, block, &mut output);
        converted.number.result()?;
        Ok(Run::from_bytes(output[..converted.len].to_vec()))
    }

    /// Writes a symbol's snapshot for subscribers: its national and FINRA best and each letter's latest
    /// quote, in one or two blocks that [`snapshot::blocks`](crate::snapshot::blocks) cuts apart. A day
    /// need not be open.
    pub fn snapshot(&self, symbol: impl AsRef<[u8]>) -> Result<Vec<u8>, Refusal> {
        let mut output = vec![0; SNAPSHOT_MAX];
        let size = lent::snapshot(&self.memory, &symbol_bytes(symbol), &mut output);
        size.number.result()?;
        output.truncate(size.bytes);
        Ok(output)
    }

    /// Tries an order of 1 to 1,000,000 round lots: what it would take, step by step, at the offers or at
    /// the bids. A halted symbol fills nothing. A day need not be open, and the book is not changed.
    pub fn try_order(
        &self,
        symbol: impl AsRef<[u8]>,
        order: Order,
        lots: u32,
    ) -> Result<Trial, Refusal> {
        let mut steps = [0; STEPS_LEN];
        let symbol = symbol_bytes(symbol);
        let told = lent::try_order(&self.memory, &symbol, order.mark(), lots, &mut steps);
        Trial::new(order, told, &steps)
    }

    /// The memory, for calls that keep it a book.
    pub(crate) fn memory(&mut self) -> &mut [u8] {
        &mut self.memory
    }

    /// The book's memory, to keep a copy that can be lent to the functions of [`lent`].
    pub fn as_bytes(&self) -> &[u8] {
        &self.memory
    }
}

/// A symbol of eleven bytes. One that is too long gives spaces alone, which are refused alike.
pub(crate) fn symbol_bytes(symbol: impl AsRef<[u8]>) -> [u8; SYMBOL_LEN] {
    filled_up(symbol.as_ref()).unwrap_or([b' '; SYMBOL_LEN])
}

impl Debug for Book {
    fn fmt(&self, f: &mut Formatter) -> fmt::Result {
        write!(f, "Book of {} bytes", self.memory.len())
    }
}
