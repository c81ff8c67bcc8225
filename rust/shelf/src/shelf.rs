//! A shelf on the caller's thread.

use std::fmt::{self, Debug, Formatter};
use std::num::NonZeroUsize;

use quotebook::lent::{ANSWER_LEN, RUN_MAX, SHARES_LEN, SYMBOL_LEN};
use quotebook::{
    Book, Converted, LineRecord, Number, Order, Price, Protection, Publication, Refusal, Report,
    Run, Side, Taken, Trial,
};

use crate::books::{Books, Held};
use crate::front::{refusal, Front};
use crate::index::{Listing, Symbol};
use crate::portion::Portion;
use crate::threads::ThreadedShelf;

/// The symbols that a book of a shelf of more than 64 lists at most, unless another number is asked for:
/// a book finds a symbol by a search along its pages, and in a shorter one it finds it sooner.
pub const SYMBOLS_A_BOOK: u32 = 16;

/// The symbols that a book can list.
const SYMBOLS_MAX: u32 = 64;

/// Any number of symbols over books of at most 64.
///
/// Its calls are those of a [`Book`], with the same numbers, codes, flags and answers as one book for
/// all symbols would have. No block allocates. It is [`Send`]: a thread may own it.
pub struct Shelf {
    pub(crate) front: Front,
    pub(crate) books: Books,
    portion: [Portion; 1],
}

impl Shelf {
    /// A shelf with room for n symbols, n 1 or more: no symbols, no lines, a closed day. All its memory
    /// is taken here.
    pub fn new(n: usize) -> Result<Shelf, Refusal> {
        let most = match n <= SYMBOLS_MAX as usize {
            true => SYMBOLS_MAX,
            false => SYMBOLS_A_BOOK,
        };
        Shelf::with_books_of(most, n)
    }

    /// The same over books of at most so many symbols each, 1 to 64.
    ///
    /// Symbols are dealt to the books in turn, as they are added, so that those added first stand first
    /// in their books. The books are as even as can be.
    pub fn with_books_of(most: u32, n: usize) -> Result<Shelf, Refusal> {
        if n == 0 || !(1..=SYMBOLS_MAX).contains(&most) {
            return Err(refusal(Number::Make));
        }
        let books = n.div_ceil(most as usize);
        let symbols_of = |book: usize| (n - book).div_ceil(books) as u32;
        let held = (0..books).map(|book| Held::new(symbols_of(book)));
        Ok(Shelf {
            front: Front::new(n, books)?,
            books: Books::new(held.collect::<Result<_, _>>()?),
            portion: [Portion::new()],
        })
    }

    pub(crate) fn from_parts(front: Front, held: Vec<Held>) -> Shelf {
        Shelf {
            front,
            books: Books::new(held),
            portion: [Portion::new()],
        }
    }

    /// Spreads the books over so many threads of their own. The one that calls feeds them.
    pub fn spread(self, threads: NonZeroUsize) -> ThreadedShelf {
        ThreadedShelf::new(self, threads, false)
    }

    /// Spreads the books over so many threads of their own and the one that calls, which feeds the others
    /// and works its own share.
    pub fn spread_beside(self, threads: NonZeroUsize) -> ThreadedShelf {
        ThreadedShelf::new(self, threads, true)
    }

    /// Adds a symbol with its round lot, 1, 10, 25, 50 or 100 shares, and its primary letter, A to Z
    /// without S. The day may be open.
    pub fn add_symbol(
        &mut self,
        symbol: impl AsRef<[u8]>,
        round_lot: u32,
        primary: u8,
    ) -> Result<(), Refusal> {
        self.front.check()?;
        let symbol = symbol_bytes(symbol);
        let book = self.front.book_to_add(&symbol);
        let held = &mut self.books.held[book];
        held.book.add_symbol(symbol, round_lot, primary)?;
        self.front.list(&symbol, Listing { book, round_lot });
        Ok(())
    }

    /// Opens a line, 0 to 63, for a letter: A to Z without S. D is FINRA.
    pub fn open_line(&mut self, line: u32, letter: u8) -> Result<(), Refusal> {
        self.front.check()?;
        self.front.book.open_line(line, letter)
    }

    /// Start of Day, in all books or in none: empties all quotes, ends every halt, sets every line to
    /// its beginning and opens the day.
    pub fn start_day(&mut self) -> Result<(), Refusal> {
        self.check_books()?;
        self.front.book.start_day()?;
        self.front.damaged |= !self.books.start_day();
        self.front.check()
    }

    /// End of Day, in all books or in none: closes the day and keeps the quotes.
    pub fn end_day(&mut self) -> Result<(), Refusal> {
        self.check_books()?;
        self.front.book.end_day()?;
        self.front.damaged |= !self.books.end_day();
        self.front.check()
    }

    /// Sets an allowance of blocks for each tick, 1 to 255, with a guaranteed share for each line, and starts a
    /// tick. It is the front book's alone: a block that it refuses with 86 goes to no other.
    pub fn set_allowance(&mut self, blocks: u32, shares: &[u8; SHARES_LEN]) -> Result<(), Refusal> {
        self.front.check()?;
        self.front.book.set_allowance(blocks, shares)
    }

    /// Starts the next tick. Without an allowance nothing changes.
    pub fn tick(&mut self) -> Result<(), Refusal> {
        self.front.check()?;
        self.front.book.tick()
    }

    fn check_books(&mut self) -> Result<(), Refusal> {
        self.front.damaged |= !self.books.are_sound();
        self.front.check()
    }

    /// Takes a block of up to 45 messages on a line.
    pub fn take_block(&mut self, line: u32, block: &[u8]) -> Result<Taken, Refusal> {
        let mut answer = [0; ANSWER_LEN];
        let report = self.take_block_into(line, block, &mut answer);
        Taken::new(report, answer)
    }

    /// Takes a block as [`take_block`](Shelf::take_block) does. The answers go into a buffer of at least
    /// 180 bytes: of a taken block's message i, the bytes 4i to 4i + 3 are those of an
    /// [`Answer`](quotebook::Answer).
    pub fn take_block_into(&mut self, line: u32, block: &[u8], answer: &mut [u8]) -> Report {
        let mut report = self.front.take(line, block, answer, &mut self.portion);
        let [portion] = &mut self.portion;
        if !portion.is_empty() {
            self.books.take(portion);
            self.front.merge(portion, &mut report, answer);
        }
        report
    }

    /// The record of a line: its letter, its next expected number and its count of messages. None if
    /// the line is above 63 or not open.
    pub fn line(&self, line: u32) -> Option<LineRecord> {
        self.front.book.line(line)
    }

    /// The book that answers for a symbol: the one that lists it, or the front book, which lists none.
    /// Its queries have the answers of one book for all symbols. The lines of a book that lists symbols
    /// are not the shelf's.
    pub fn book_of(&self, symbol: impl AsRef<[u8]>) -> &Book {
        match self.front.index.find(&symbol_bytes(symbol)) {
            Some(listing) => &self.books.held[listing.book].book,
            None => &self.front.book,
        }
    }

    /// Reads a symbol's publication.
    pub fn read(&self, symbol: impl AsRef<[u8]>) -> Result<Publication, Refusal> {
        self.book_of(&symbol).read(symbol)
    }

    /// Whether a price is protected, as [`Book::is_protected`].
    pub fn is_protected(
        &self,
        symbol: impl AsRef<[u8]>,
        side: Side,
        price: Price,
    ) -> Result<Protection, Refusal> {
        self.book_of(&symbol).is_protected(symbol, side, price)
    }

    /// Tries an order, as [`Book::try_order`].
    pub fn try_order(
        &self,
        symbol: impl AsRef<[u8]>,
        order: Order,
        lots: u32,
    ) -> Result<Trial, Refusal> {
        self.book_of(&symbol).try_order(symbol, order, lots)
    }

    /// Writes a symbol's snapshot, as [`Book::snapshot`].
    pub fn snapshot(&self, symbol: impl AsRef<[u8]>) -> Result<Vec<u8>, Refusal> {
        self.book_of(&symbol).snapshot(symbol)
    }

    /// A venue's own block as a run of blocks for [`take_block`](Shelf::take_block), as
    /// [`Book::convert`]; it may name symbols of several books.
    pub fn convert(&self, block: &[u8]) -> Result<Run, Refusal> {
        convert(&self.front, block)
    }

    /// Converts as [`convert`](Shelf::convert) does, into the front of a buffer; 3,600 bytes always
    /// suffice.
    pub fn convert_into(&self, block: &[u8], output: &mut [u8]) -> Converted {
        self.front.convert(block, output)
    }

    /// The front book: every line, and no symbol.
    pub fn front(&self) -> &Book {
        &self.front.book
    }

    /// How many symbols are listed.
    pub fn symbols(&self) -> usize {
        self.front.listed
    }

    /// How many books list symbols; the front book is one more.
    pub fn books(&self) -> usize {
        self.front.books
    }

    /// The bytes of all books and of the index.
    pub fn memory(&self) -> usize {
        let books = self.books.held.iter().map(|held| &held.book);
        let bytes = books.chain([&self.front.book]);
        bytes.map(|book| book.as_bytes().len()).sum::<usize>() + self.front.index.memory()
    }
}

pub(crate) fn convert(front: &Front, block: &[u8]) -> Result<Run, Refusal> {
    let mut output = [0; RUN_MAX];
    let converted = front.convert(block, &mut output);
    match converted.number.is_refusal() {
        true => Err(refusal(converted.number)),
        false => Ok(Run::from_bytes(output[..converted.len].to_vec())),
    }
}

/// A symbol of eleven bytes, filled up with spaces. One that is too long gives spaces alone, which no
/// book lists.
pub(crate) fn symbol_bytes(symbol: impl AsRef<[u8]>) -> Symbol {
    let symbol = symbol.as_ref();
    let mut bytes = [b' '; SYMBOL_LEN];
    if let Some(front) = bytes.get_mut(..symbol.len()) {
        front.copy_from_slice(symbol);
    }
    bytes
}

impl Debug for Shelf {
    fn fmt(&self, f: &mut Formatter) -> fmt::Result {
        write!(
            f,
            "Shelf of {} books, {} symbols",
            self.books(),
            self.symbols()
        )
    }
}

#[cfg(test)]
mod tests {
    use super::*;
    use quotebook::message::{self, Header, RoundLotQuote};
    use quotebook::write_block;

    /// A book whose day has been closed behind the shelf's back stands for one that is damaged: it refuses
    /// its messages, and the shelf then refuses everything with 1.
    #[test]
    fn a_shelf_with_a_book_that_refuses_is_no_book() -> Result<(), Box<dyn std::error::Error>> {
        let mut shelf = Shelf::with_books_of(1, 2)?;
        shelf.add_symbol("A", 100, b'N')?;
        shelf.add_symbol("B", 100, b'N')?;
        shelf.open_line(5, b'N')?;
        shelf.start_day()?;
        shelf.books.held[1].book.end_day()?;
        let quote = |symbol: &str| -> Result<_, quotebook::FieldError> {
            let header = Header::new(b'N', 1);
            Ok(RoundLotQuote::new(header, symbol.parse()?).to_bytes())
        };
        shelf.take_block(5, &write_block(1, [quote("A")?])?)?;
        let no_book = |refused: Result<(), Refusal>| {
            assert_eq!(refused, Err(refusal(Number::NoBook)));
        };
        let block = write_block(2, [quote("A")?, quote("B")?])?;
        no_book(shelf.take_block(5, &block).map(drop));
        let idle = write_block(3, [message::line_integrity(Header::new(b'N', 1))])?;
        no_book(shelf.take_block(5, &idle).map(drop));
        no_book(shelf.add_symbol("C", 100, b'N'));
        no_book(shelf.open_line(6, b'P'));
        no_book(shelf.start_day());
        no_book(shelf.end_day());
        assert!(shelf.read("A").is_ok(), "other books still answer");
        Ok(())
    }
}
