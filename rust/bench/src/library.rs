//! The proved library on lent memory, under the calls that all books here have.

use quotebook::lent;
use second::{Converted, Protected, QuoteBook, Report, SnapshotSize, Tried};

/// A book of the library and the memory that is lent to its calls.
pub struct Library {
    memory: Vec<u8>,
}

impl Library {
    /// A fresh book for n symbols, n being 1 to 64.
    pub fn fresh(n: u32) -> Library {
        let len = lent::book_len(n).expect("n is 1 to 64");
        let mut library = Library {
            memory: vec![0; len],
        };
        assert_eq!(library.make(n), 0, "a book is made");
        library
    }

    /// The bytes of the book.
    pub fn memory(&self) -> usize {
        self.memory.len()
    }
}

impl QuoteBook for Library {
    fn make(&mut self, n: u32) -> u8 {
        lent::make(&mut self.memory, n).into()
    }

    fn add_symbol(&mut self, symbol: &[u8], round_lot: u32, primary: u8) -> u8 {
        lent::add_symbol(&mut self.memory, symbol, round_lot, primary).into()
    }

    fn open_line(&mut self, line: u32, letter: u8) -> u8 {
        lent::open_line(&mut self.memory, line, letter).into()
    }

    fn start_day(&mut self) -> u8 {
        lent::start_day(&mut self.memory).into()
    }

    fn end_day(&mut self) -> u8 {
        lent::end_day(&mut self.memory).into()
    }

    fn set_allowance(&mut self, blocks: u32, shares: &[u8]) -> u8 {
        lent::set_allowance(&mut self.memory, blocks, shares).into()
    }

    fn tick(&mut self) -> u8 {
        lent::tick(&mut self.memory).into()
    }

    #[inline]
    fn take_block(&mut self, line: u32, block: &[u8], answer: &mut [u8]) -> Report {
        let report = lent::take_block(&mut self.memory, line, block, answer);
        Report {
            number: report.number.into(),
            gap: report.gap,
            expected: report.expected,
            count: report.count,
            accepted: report.accepted,
            partly: report.partly,
            rejected: report.rejected,
        }
    }

    fn read(&self, symbol: &[u8], publication: &mut [u8]) -> u8 {
        lent::read(&self.memory, symbol, publication).into()
    }

    #[inline]
    fn snapshot_len(&self, symbol: &[u8]) -> SnapshotSize {
        let told = lent::snapshot_len(&self.memory, symbol);
        SnapshotSize {
            number: told.number.into(),
            blocks: told.blocks,
            bytes: told.bytes,
        }
    }

    #[inline]
    fn snapshot(&self, symbol: &[u8], output: &mut [u8]) -> SnapshotSize {
        let told = lent::snapshot(&self.memory, symbol, output);
        SnapshotSize {
            number: told.number.into(),
            blocks: told.blocks,
            bytes: told.bytes,
        }
    }

    #[inline]
    fn is_protected(&self, symbol: &[u8], side: u8, price: u64) -> Protected {
        let told = lent::is_protected(&self.memory, symbol, side, price);
        Protected {
            number: told.number.into(),
            yes: told.yes,
            looked: told.looked,
        }
    }

    #[inline]
    fn convert_len(&self, block: &[u8]) -> Converted {
        let told = lent::convert_len(&self.memory, block);
        Converted {
            number: told.number.into(),
            len: told.len,
        }
    }

    #[inline]
    fn convert(&self, block: &[u8], output: &mut [u8]) -> Converted {
        let told = lent::convert(&self.memory, block, output);
        Converted {
            number: told.number.into(),
            len: told.len,
        }
    }

    #[inline]
    fn try_order(&self, symbol: &[u8], side: u8, lots: u32, steps: &mut [u8]) -> Tried {
        let told = lent::try_order(&self.memory, symbol, side, lots, steps);
        Tried {
            number: told.number.into(),
            steps: told.steps as u8,
            unfilled: told.unfilled,
        }
    }
}
