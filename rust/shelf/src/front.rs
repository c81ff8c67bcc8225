//! The front book, which has every line and no symbol, and where messages go from it.

use std::ops::Range;

use quotebook::lent::{BLOCK_MAX, MESSAGES_MAX, SYMBOL_LEN};
use quotebook::{lent, Book, Code, Converted, Number, Refusal, Report};

use crate::index::{Index, Listing, Symbol};
use crate::portion::Portion;

/// The front book and the index of the listed symbols.
pub struct Front {
    pub book: Book,
    pub index: Index,
    /// How many symbols are listed.
    pub listed: usize,
    /// How many books list them.
    pub books: usize,
    /// A book of the shelf has refused what a sound one takes.
    pub damaged: bool,
}

impl Front {
    /// A front of so many books for n symbols.
    pub fn new(n: usize, books: usize) -> Result<Front, Refusal> {
        Ok(Front {
            book: Book::new(1)?,
            index: Index::new(n),
            listed: 0,
            books,
            damaged: false,
        })
    }

    /// The refusal of a shelf one of whose books is damaged: like one large book that is.
    pub fn check(&self) -> Result<(), Refusal> {
        match self.damaged {
            false => Ok(()),
            true => Err(refusal(Number::NoBook)),
        }
    }

    /// Puts the answers of a portion's books into the block's. If one of them refused its messages, the
    /// shelf is damaged, and this block and all later calls are refused with 1.
    #[inline]
    pub fn merge(&mut self, portion: &Portion, report: &mut Report, answer: &mut [u8]) {
        self.damaged |= portion.refused;
        if self.damaged {
            *report = no_book();
        } else {
            portion.merge(report, answer);
        }
    }

    /// The book that a symbol is to be added to: the one that lists it, which then refuses, or else
    /// the next in turn. Where all are full that one says so.
    pub fn book_to_add(&self, symbol: &Symbol) -> usize {
        let listing = self.index.find(symbol);
        listing.map_or(self.listed % self.books, |listing| listing.book)
    }

    /// Notes a symbol that its book has taken.
    pub fn list(&mut self, symbol: &Symbol, listing: Listing) {
        self.index.list(symbol, listing);
        self.listed += 1;
    }

    /// The front book takes the block; then its messages are divided. Book b has those of its symbols
    /// in portion b modulo the number of portions.
    ///
    /// The front book judges the block, moves the line, and gives each message the code of the first
    /// check that needs no symbol. It lists none: what comes to the check of the symbol has code 45.
    #[inline]
    pub fn take(
        &mut self,
        line: u32,
        block: &[u8],
        answer: &mut [u8],
        portions: &mut [Portion],
    ) -> Report {
        for portion in &mut *portions {
            portion.clear();
        }
        if self.damaged {
            return no_book();
        }
        let report = self.book.take_block_into(line, block, answer);
        if report.number.is_refusal() {
            return report;
        }
        let messages = report.messages();
        if messages == 1 && is_finra_day(message(block, 0)) {
            if answer[1] == Code::Accepted as u8 {
                for portion in portions {
                    portion.to_all = true;
                    portion.add(0, message(block, 0));
                }
            }
            return report;
        }
        let mut books = [0; MESSAGES_MAX];
        let mut left = 0u64;
        for place in 0..messages {
            if answer[4 * place + 1] == Code::Symbol as u8 {
                if let Some(listing) = self.index.find(symbol_of(message(block, place))) {
                    books[place] = listing.book;
                    left |= 1 << place;
                }
            }
        }
        divide(block, &books, left, portions);
        report
    }

    /// A venue's block as a run of ours. The front book's run has the blocks, their numbers and every
    /// field. It lists no symbol, so round sizes are undivided: those of listed symbols are divided
    /// here, the rest is dropped, and the blocks are written anew.
    pub fn convert(&self, block: &[u8], output: &mut [u8]) -> Converted {
        let converted = lent::convert(self.book.as_bytes(), block, output);
        let mut left = &mut output[..converted.len];
        while let [_, _, high, low, ..] = *left {
            let len = usize::from(u16::from_be_bytes([high, low]));
            let (plain, behind) = left.split_at_mut(len);
            self.divide_sizes(plain);
            left = behind;
        }
        converted
    }

    /// Divides the sizes of a block's round lot quotes and writes it anew, under its own number.
    fn divide_sizes(&self, block: &mut [u8]) {
        let count = usize::from(block[1]);
        let mut messages = [0; BLOCK_MAX];
        let mut lengths = [0; MESSAGES_MAX];
        let mut filled = 0;
        for (place, length) in lengths[..count].iter_mut().enumerate() {
            let plain = message(block, place);
            let message = &mut messages[filled..filled + plain.len()];
            message.copy_from_slice(plain);
            if let (b'K', Some(listing)) = (plain[1], self.index.find(symbol_of(plain))) {
                divide_size(&mut message[40..44], listing.round_lot);
                divide_size(&mut message[52..56], listing.round_lot);
            }
            *length = plain.len() as u32;
            filled += plain.len();
        }
        let sequence = field(block, 4);
        lent::write_block(&messages[..filled], &lengths[..count], sequence, block);
    }
}

fn field(bytes: &[u8], at: usize) -> u32 {
    u32::from_be_bytes([bytes[at], bytes[at + 1], bytes[at + 2], bytes[at + 3]])
}

fn divide_size(size: &mut [u8], round_lot: u32) {
    let shares = field(size, 0);
    size.copy_from_slice(&(shares / round_lot).to_be_bytes());
}

/// Lays the messages that are left of a block into the portions, book by book.
#[inline]
fn divide(block: &[u8], books: &[usize; MESSAGES_MAX], left: u64, portions: &mut [Portion]) {
    let (mut left, threads) = (left, portions.len());
    while left != 0 {
        let book = books[left.trailing_zeros() as usize];
        let portion = &mut portions[book % threads];
        portion.begin(book / threads);
        let mut others = 0;
        while left != 0 {
            let place = left.trailing_zeros() as usize;
            left &= left - 1;
            if books[place] == book {
                portion.add(place, message(block, place));
            } else {
                others |= 1 << place;
            }
        }
        left = others;
    }
}

/// Where a message stands in a block that has passed checks 30 to 34.
#[inline]
fn message_bounds(block: &[u8], place: usize) -> Range<usize> {
    let offset = |place: usize| {
        let at = 10 + 2 * place;
        usize::from(u16::from_be_bytes([block[at], block[at + 1]]))
    };
    match place + 1 == usize::from(block[1]) {
        true => offset(place)..block.len(),
        false => offset(place)..offset(place + 1),
    }
}

#[inline]
fn message(block: &[u8], place: usize) -> &[u8] {
    &block[message_bounds(block, place)]
}

/// The symbol of a quote or status, which has its length.
#[inline]
fn symbol_of(message: &[u8]) -> &Symbol {
    let symbol = message[20..].first_chunk::<SYMBOL_LEN>();
    symbol.expect("a message that came to the check of its symbol has one")
}

/// FINRA Close or Open.
#[inline]
fn is_finra_day(message: &[u8]) -> bool {
    matches!(message, [b'C', b'C' | b'O', ..])
}

/// A refusal of any call but the block call.
pub fn refusal(number: Number) -> Refusal {
    Refusal {
        number,
        expected: 0,
        count: 0,
    }
}

fn no_book() -> Report {
    Report {
        number: Number::NoBook,
        gap: 0,
        expected: 0,
        count: 0,
        accepted: 0,
        partly: 0,
        rejected: 0,
    }
}
