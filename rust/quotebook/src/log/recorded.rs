//! The calls of a recorder: each is appended to the log, then carried out.

use super::{Call, LogError, Recorder, Sink};
use crate::book::symbol_bytes;
use crate::lent::{self, ANSWER_LEN, PUBLICATION_LEN, RUN_MAX, SHARES_LEN, STEPS_LEN};
use crate::number::Number;
use crate::order::{Order, Trial, Tried};
use crate::price::Price;
use crate::protection::{Protected, Protection, Side};
use crate::publication::Publication;
use crate::report::{Report, Taken};
use crate::run::{Converted, Run};
use crate::snapshot::{SnapshotSize, SNAPSHOT_MAX};

/// The calls of a [`Book`](crate::Book).
impl<W: Sink> Recorder<W> {
    /// [`Book::make`](crate::Book::make).
    pub fn make(&mut self, n: u32) -> Result<(), LogError> {
        Ok(self.raw().make(n)?.result()?)
    }

    /// [`Book::add_symbol`](crate::Book::add_symbol).
    pub fn add_symbol(
        &mut self,
        symbol: impl AsRef<[u8]>,
        round_lot: u32,
        primary: u8,
    ) -> Result<(), LogError> {
        let symbol = symbol_bytes(symbol);
        let number = self.raw().add_symbol(&symbol, round_lot, primary)?;
        Ok(number.result()?)
    }

    /// [`Book::open_line`](crate::Book::open_line).
    pub fn open_line(&mut self, line: u32, letter: u8) -> Result<(), LogError> {
        Ok(self.raw().open_line(line, letter)?.result()?)
    }

    /// [`Book::start_day`](crate::Book::start_day).
    pub fn start_day(&mut self) -> Result<(), LogError> {
        Ok(self.raw().start_day()?.result()?)
    }

    /// [`Book::end_day`](crate::Book::end_day).
    pub fn end_day(&mut self) -> Result<(), LogError> {
        Ok(self.raw().end_day()?.result()?)
    }

    /// [`Book::set_allowance`](crate::Book::set_allowance).
    pub fn set_allowance(
        &mut self,
        blocks: u32,
        shares: &[u8; SHARES_LEN],
    ) -> Result<(), LogError> {
        Ok(self.raw().set_allowance(blocks, shares)?.result()?)
    }

    /// [`Book::tick`](crate::Book::tick).
    pub fn tick(&mut self) -> Result<(), LogError> {
        Ok(self.raw().tick()?.result()?)
    }

    /// [`Book::take_block`](crate::Book::take_block).
    pub fn take_block(&mut self, line: u32, block: &[u8]) -> Result<Taken, LogError> {
        self.append(&Call::TakeBlock {
            line,
            block,
            room: ANSWER_LEN as u64,
        })?;
        Ok(self.book.take_block(line, block)?)
    }

    /// [`Book::read`](crate::Book::read).
    pub fn read(&mut self, symbol: impl AsRef<[u8]>) -> Result<Publication, LogError> {
        let symbol = &symbol_bytes(symbol);
        self.append(&Call::Read {
            symbol,
            room: PUBLICATION_LEN as u64,
        })?;
        Ok(self.book.read(symbol)?)
    }

    /// [`Book::is_protected`](crate::Book::is_protected).
    pub fn is_protected(
        &mut self,
        symbol: impl AsRef<[u8]>,
        side: Side,
        price: Price,
    ) -> Result<Protection, LogError> {
        let symbol = &symbol_bytes(symbol);
        self.append(&Call::IsProtected {
            symbol,
            side: side.mark(),
            price: price.0,
        })?;
        Ok(self.book.is_protected(symbol, side, price)?)
    }

    /// [`Book::convert`](crate::Book::convert).
    pub fn convert(&mut self, block: &[u8]) -> Result<Run, LogError> {
        self.append(&Call::Convert {
            block,
            room: RUN_MAX as u64,
        })?;
        Ok(self.book.convert(block)?)
    }

    /// [`Book::snapshot`](crate::Book::snapshot).
    pub fn snapshot(&mut self, symbol: impl AsRef<[u8]>) -> Result<Vec<u8>, LogError> {
        let symbol = &symbol_bytes(symbol);
        self.append(&Call::Snapshot {
            symbol,
            room: SNAPSHOT_MAX as u64,
        })?;
        Ok(self.book.snapshot(symbol)?)
    }

    /// [`Book::try_order`](crate::Book::try_order).
    pub fn try_order(
        &mut self,
        symbol: impl AsRef<[u8]>,
        order: Order,
        lots: u32,
    ) -> Result<Trial, LogError> {
        let symbol = &symbol_bytes(symbol);
        self.append(&Call::TryOrder {
            symbol,
            side: order.mark(),
            lots,
            room: STEPS_LEN as u64,
        })?;
        Ok(self.book.try_order(symbol, order, lots)?)
    }

    /// The calls of [`lent`], on the recorder's book.
    pub fn raw(&mut self) -> Raw<'_, W> {
        Raw(self)
    }
}

/// The calls of [`lent`] on a recorder's book: raw arguments, and buffers of any length.
#[derive(Debug)]
pub struct Raw<'a, W>(&'a mut Recorder<W>);

impl<W: Sink> Raw<'_, W> {
    /// Appends a call, and lends the book to it.
    fn logged(&mut self, call: Call) -> Result<&mut [u8], LogError> {
        self.0.append(&call)?;
        Ok(self.0.book.memory())
    }

    /// [`lent::make`].
    pub fn make(&mut self, n: u32) -> Result<Number, LogError> {
        let book = self.logged(Call::Make { n })?;
        Ok(lent::make(book, n))
    }

    /// [`lent::add_symbol`].
    pub fn add_symbol(
        &mut self,
        symbol: &[u8],
        round_lot: u32,
        primary: u8,
    ) -> Result<Number, LogError> {
        let book = self.logged(Call::AddSymbol {
            symbol,
            round_lot,
            primary,
        })?;
        Ok(lent::add_symbol(book, symbol, round_lot, primary))
    }

    /// [`lent::open_line`].
    pub fn open_line(&mut self, line: u32, letter: u8) -> Result<Number, LogError> {
        let book = self.logged(Call::OpenLine { line, letter })?;
        Ok(lent::open_line(book, line, letter))
    }

    /// [`lent::start_day`].
    pub fn start_day(&mut self) -> Result<Number, LogError> {
        Ok(lent::start_day(self.logged(Call::StartDay)?))
    }

    /// [`lent::end_day`].
    pub fn end_day(&mut self) -> Result<Number, LogError> {
        Ok(lent::end_day(self.logged(Call::EndDay)?))
    }

    /// [`lent::set_allowance`].
    pub fn set_allowance(&mut self, blocks: u32, shares: &[u8]) -> Result<Number, LogError> {
        let book = self.logged(Call::SetAllowance { blocks, shares })?;
        Ok(lent::set_allowance(book, blocks, shares))
    }

    /// [`lent::tick`].
    pub fn tick(&mut self) -> Result<Number, LogError> {
        Ok(lent::tick(self.logged(Call::Tick)?))
    }

    /// [`lent::take_block`].
    pub fn take_block(
        &mut self,
        line: u32,
        block: &[u8],
        answer: &mut [u8],
    ) -> Result<Report, LogError> {
        let room = answer.len() as u64;
        let book = self.logged(Call::TakeBlock { line, block, room })?;
        Ok(lent::take_block(book, line, block, answer))
    }

    /// [`lent::read`].
    pub fn read(&mut self, symbol: &[u8], publication: &mut [u8]) -> Result<Number, LogError> {
        let room = publication.len() as u64;
        let book = self.logged(Call::Read { symbol, room })?;
        Ok(lent::read(book, symbol, publication))
    }

    /// [`lent::is_protected`].
    pub fn is_protected(
        &mut self,
        symbol: &[u8],
        side: u8,
        price: u64,
    ) -> Result<Protected, LogError> {
        let book = self.logged(Call::IsProtected {
            symbol,
            side,
            price,
        })?;
        Ok(lent::is_protected(book, symbol, side, price))
    }

    /// [`lent::convert_len`].
    pub fn convert_len(&mut self, block: &[u8]) -> Result<Converted, LogError> {
        let book = self.logged(Call::ConvertLen { block })?;
        Ok(lent::convert_len(book, block))
    }

    /// [`lent::convert`].
    pub fn convert(&mut self, block: &[u8], output: &mut [u8]) -> Result<Converted, LogError> {
        let room = output.len() as u64;
        let book = self.logged(Call::Convert { block, room })?;
        Ok(lent::convert(book, block, output))
    }

    /// [`lent::snapshot_len`].
    pub fn snapshot_len(&mut self, symbol: &[u8]) -> Result<SnapshotSize, LogError> {
        let book = self.logged(Call::SnapshotLen { symbol })?;
        Ok(lent::snapshot_len(book, symbol))
    }

    /// [`lent::snapshot`].
    pub fn snapshot(&mut self, symbol: &[u8], output: &mut [u8]) -> Result<SnapshotSize, LogError> {
        let room = output.len() as u64;
        let book = self.logged(Call::Snapshot { symbol, room })?;
        Ok(lent::snapshot(book, symbol, output))
    }

    /// [`lent::try_order`].
    pub fn try_order(
        &mut self,
        symbol: &[u8],
        side: u8,
        lots: u32,
        steps: &mut [u8],
    ) -> Result<Tried, LogError> {
        let book = self.logged(Call::TryOrder {
            symbol,
            side,
            lots,
            room: steps.len() as u64,
        })?;
        Ok(lent::try_order(book, symbol, side, lots, steps))
    }
}
