//! Shelves as books that the second implementation can be compared with.

use std::cell::RefCell;
use std::num::NonZeroUsize;

use quotebook::{lent, Book, Number, Refusal, Report};
use second::{Converted, Engine, Protected, QuoteBook, SnapshotSize, Tried};
use shelf::{Shelf, ThreadedShelf};

/// One large book of the second implementation.
pub fn large(n: u32) -> Box<dyn QuoteBook> {
    Box::new(Engine::large(n))
}

/// A shelf over books of M symbols; 0 is the usual number.
pub fn shelf<const M: u32>(n: u32) -> Box<dyn QuoteBook> {
    Box::new(OneThread::<M>::fresh(n))
}

/// A shelf over books of M symbols on T threads beside the one that feeds.
pub fn threads<const M: u32, const T: usize>(n: u32) -> Box<dyn QuoteBook> {
    Box::new(Threads::<M, T>::fresh(n))
}

pub fn number(answered: Result<(), Refusal>) -> u8 {
    answered
        .map_or_else(|refusal| refusal.number, |()| Number::Done)
        .into()
}

/// A symbol for calls that fill it up: one of another length than eleven is malformed.
fn whole(symbol: &[u8]) -> &[u8] {
    if symbol.len() == lent::SYMBOL_LEN {
        symbol
    } else {
        b" "
    }
}

pub fn reported(report: Report) -> second::Report {
    second::Report {
        number: report.number.into(),
        gap: report.gap,
        expected: report.expected,
        count: report.count,
        accepted: report.accepted,
        partly: report.partly,
        rejected: report.rejected,
    }
}

fn converted(told: quotebook::Converted) -> Converted {
    Converted {
        number: told.number.into(),
        len: told.len,
    }
}

fn protected(book: &Book, symbol: &[u8], side: u8, price: u64) -> Protected {
    let told = lent::is_protected(book.as_bytes(), symbol, side, price);
    Protected {
        number: told.number.into(),
        yes: told.yes,
        looked: told.looked,
    }
}

fn size(told: quotebook::snapshot::SnapshotSize) -> SnapshotSize {
    SnapshotSize {
        number: told.number.into(),
        blocks: told.blocks,
        bytes: told.bytes,
    }
}

fn tried(book: &Book, symbol: &[u8], side: u8, lots: u32, steps: &mut [u8]) -> Tried {
    let told = lent::try_order(book.as_bytes(), symbol, side, lots, steps);
    Tried {
        number: told.number.into(),
        steps: told.steps as u8,
        unfilled: told.unfilled,
    }
}

/// A shelf of n symbols over books of most symbols; 0 is the usual number.
fn shelf_of(most: u32, n: u32) -> Shelf {
    let shelf = match most {
        0 => Shelf::new(n as usize),
        _ => Shelf::with_books_of(most, n as usize),
    };
    shelf.expect("n is 1 or more")
}

/// A shelf on one thread, over books of M symbols.
pub struct OneThread<const M: u32> {
    n: u32,
    pub shelf: Shelf,
}

impl<const M: u32> OneThread<M> {
    pub fn fresh(n: u32) -> OneThread<M> {
        OneThread {
            n,
            shelf: shelf_of(M, n),
        }
    }
}

impl<const M: u32> QuoteBook for OneThread<M> {
    fn make(&mut self, n: u32) -> u8 {
        if n != self.n {
            return Number::Make.into();
        }
        *self = OneThread::fresh(n);
        Number::Done.into()
    }

    fn add_symbol(&mut self, symbol: &[u8], round_lot: u32, primary: u8) -> u8 {
        number(self.shelf.add_symbol(whole(symbol), round_lot, primary))
    }

    fn open_line(&mut self, line: u32, letter: u8) -> u8 {
        number(self.shelf.open_line(line, letter))
    }

    fn start_day(&mut self) -> u8 {
        number(self.shelf.start_day())
    }

    fn end_day(&mut self) -> u8 {
        number(self.shelf.end_day())
    }

    fn set_allowance(&mut self, blocks: u32, shares: &[u8]) -> u8 {
        match shares.try_into() {
            Ok(shares) => number(self.shelf.set_allowance(blocks, shares)),
            // The number that the front book gives to shares of another length.
            Err(_) => {
                let mut front = self.shelf.front().as_bytes().to_vec();
                lent::set_allowance(&mut front, blocks, shares).into()
            }
        }
    }

    fn tick(&mut self) -> u8 {
        number(self.shelf.tick())
    }

    #[inline]
    fn take_block(&mut self, line: u32, block: &[u8], answer: &mut [u8]) -> second::Report {
        reported(self.shelf.take_block_into(line, block, answer))
    }

    fn read(&self, symbol: &[u8], publication: &mut [u8]) -> u8 {
        let book = self.shelf.book_of(symbol);
        lent::read(book.as_bytes(), symbol, publication).into()
    }

    fn is_protected(&self, symbol: &[u8], side: u8, price: u64) -> Protected {
        protected(self.shelf.book_of(symbol), symbol, side, price)
    }

    fn convert_len(&self, block: &[u8]) -> Converted {
        converted(lent::convert_len(self.shelf.front().as_bytes(), block))
    }

    fn convert(&self, block: &[u8], output: &mut [u8]) -> Converted {
        converted(self.shelf.convert_into(block, output))
    }

    fn snapshot_len(&self, symbol: &[u8]) -> SnapshotSize {
        let book = self.shelf.book_of(symbol);
        size(lent::snapshot_len(book.as_bytes(), symbol))
    }

    fn snapshot(&self, symbol: &[u8], output: &mut [u8]) -> SnapshotSize {
        let book = self.shelf.book_of(symbol);
        size(lent::snapshot(book.as_bytes(), symbol, output))
    }

    fn try_order(&self, symbol: &[u8], side: u8, lots: u32, steps: &mut [u8]) -> Tried {
        tried(self.shelf.book_of(symbol), symbol, side, lots, steps)
    }
}

/// A shelf over T threads and the one that feeds, over books of M symbols; each block is waited for.
pub struct Threads<const M: u32, const T: usize> {
    n: u32,
    pub shelf: RefCell<ThreadedShelf>,
}

impl<const M: u32, const T: usize> Threads<M, T> {
    pub fn fresh(n: u32) -> Threads<M, T> {
        let shelf = shelf_of(M, n);
        let threads = NonZeroUsize::new(T).expect("one thread or more");
        Threads {
            n,
            shelf: RefCell::new(shelf.spread_beside(threads)),
        }
    }

    /// Has the book of a symbol fill a copy of a buffer, and takes it over.
    fn filling<R: Send + 'static>(
        &self,
        symbol: &[u8],
        buffer: &mut [u8],
        ask: impl FnOnce(&[u8], &[u8], &mut [u8]) -> R + Send + 'static,
    ) -> R {
        let (asked, mut copy) = (symbol.to_vec(), buffer.to_vec());
        let (copy, told) = self.shelf.borrow_mut().with_book_of(symbol, move |book| {
            let told = ask(book.as_bytes(), &asked, &mut copy);
            (copy, told)
        });
        buffer.copy_from_slice(&copy);
        told
    }
}

impl<const M: u32, const T: usize> QuoteBook for Threads<M, T> {
    fn make(&mut self, n: u32) -> u8 {
        if n != self.n {
            return Number::Make.into();
        }
        *self = Threads::fresh(n);
        Number::Done.into()
    }

    fn add_symbol(&mut self, symbol: &[u8], round_lot: u32, primary: u8) -> u8 {
        number(
            self.shelf
                .get_mut()
                .add_symbol(whole(symbol), round_lot, primary),
        )
    }

    fn open_line(&mut self, line: u32, letter: u8) -> u8 {
        number(self.shelf.get_mut().open_line(line, letter))
    }

    fn start_day(&mut self) -> u8 {
        number(self.shelf.get_mut().start_day())
    }

    fn end_day(&mut self) -> u8 {
        number(self.shelf.get_mut().end_day())
    }

    fn set_allowance(&mut self, blocks: u32, shares: &[u8]) -> u8 {
        match shares.try_into() {
            Ok(shares) => number(self.shelf.get_mut().set_allowance(blocks, shares)),
            Err(_) => {
                let asked = shares.to_vec();
                let front = self.shelf.get_mut();
                front.with_book_of("", move |front| {
                    let mut front = front.as_bytes().to_vec();
                    lent::set_allowance(&mut front, blocks, &asked).into()
                })
            }
        }
    }

    fn tick(&mut self) -> u8 {
        number(self.shelf.get_mut().tick())
    }

    /// The shelf has a buffer of its own, so a short one is refused here.
    fn take_block(&mut self, line: u32, block: &[u8], answer: &mut [u8]) -> second::Report {
        if answer.len() < lent::ANSWER_LEN {
            return second::Report {
                number: Number::BufferShort.into(),
                ..second::Report::default()
            };
        }
        match self.shelf.get_mut().take_block(line, block) {
            Ok(taken) => {
                for (answer, told) in answer.chunks_exact_mut(4).zip(taken.answers()) {
                    answer.copy_from_slice(&[told.index, told.code.into(), told.changes.bits(), 0]);
                }
                reported(taken.report)
            }
            Err(refusal) => second::Report {
                number: refusal.number.into(),
                expected: refusal.expected,
                count: refusal.count,
                ..second::Report::default()
            },
        }
    }

    fn read(&self, symbol: &[u8], publication: &mut [u8]) -> u8 {
        self.filling(symbol, publication, |book, symbol, publication| {
            lent::read(book, symbol, publication).into()
        })
    }

    fn is_protected(&self, symbol: &[u8], side: u8, price: u64) -> Protected {
        let asked = symbol.to_vec();
        self.shelf
            .borrow_mut()
            .with_book_of(symbol, move |book| protected(book, &asked, side, price))
    }

    fn convert_len(&self, block: &[u8]) -> Converted {
        let asked = block.to_vec();
        self.shelf.borrow_mut().with_book_of("", move |front| {
            converted(lent::convert_len(front.as_bytes(), &asked))
        })
    }

    /// The shelf has a buffer of its own, so a short one is refused here.
    fn convert(&self, block: &[u8], output: &mut [u8]) -> Converted {
        match self.shelf.borrow().convert(block) {
            Ok(run) if run.as_bytes().len() > output.len() => Converted {
                number: Number::ConvertShort.into(),
                len: 0,
            },
            Ok(run) => {
                let len = run.as_bytes().len();
                output[..len].copy_from_slice(run.as_bytes());
                Converted {
                    number: Number::Done.into(),
                    len,
                }
            }
            Err(refusal) => Converted {
                number: refusal.number.into(),
                len: 0,
            },
        }
    }

    fn snapshot_len(&self, symbol: &[u8]) -> SnapshotSize {
        let asked = symbol.to_vec();
        self.shelf.borrow_mut().with_book_of(symbol, move |book| {
            size(lent::snapshot_len(book.as_bytes(), &asked))
        })
    }

    fn snapshot(&self, symbol: &[u8], output: &mut [u8]) -> SnapshotSize {
        self.filling(symbol, output, |book, symbol, output| {
            size(lent::snapshot(book, symbol, output))
        })
    }

    fn try_order(&self, symbol: &[u8], side: u8, lots: u32, steps: &mut [u8]) -> Tried {
        self.filling(symbol, steps, move |book, symbol, steps| {
            let told = lent::try_order(book, symbol, side, lots, steps);
            Tried {
                number: told.number.into(),
                steps: told.steps as u8,
                unfilled: told.unfilled,
            }
        })
    }
}
