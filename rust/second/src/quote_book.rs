//! The seven calls of document 01 ("The book and its calls") and those of document 02, with their answers.

use crate::venue::Converted;

/// What the block call reports. A refused block carries its number, no gap and no messages.
#[derive(Clone, Copy, PartialEq, Eq, Debug, Default)]
pub struct Report {
    /// 0 or 70 for a taken block, else the refusal.
    pub number: u8,
    /// The block's sequence number less the expected one.
    pub gap: u32,
    /// The line's next expected number.
    pub expected: u32,
    /// The line's count of messages.
    pub count: u64,
    /// Messages with code 0.
    pub accepted: u32,
    /// Q K messages with codes 60 to 64.
    pub partly: u32,
    /// All other messages of the block.
    pub rejected: u32,
}

impl Report {
    /// The seven fields in their order, as one row of numbers.
    pub fn fields(&self) -> [u64; 7] {
        [
            u64::from(self.number),
            u64::from(self.gap),
            u64::from(self.expected),
            self.count,
            u64::from(self.accepted),
            u64::from(self.partly),
            u64::from(self.rejected),
        ]
    }
}

/// What the query of T-06 reports. A refusal carries its number, no and 0.
#[derive(Clone, Copy, PartialEq, Eq, Debug, Default)]
pub struct Protected {
    /// 0, or the refusal.
    pub number: u8,
    /// Whether a national candidate reaches the price.
    pub yes: bool,
    /// How many letters were looked at: the position of the first that answers yes, or 26.
    pub looked: u8,
}

impl Protected {
    /// A refused query.
    pub fn refused(number: u8) -> Protected {
        Protected {
            number,
            ..Protected::default()
        }
    }
}

/// What the calls of T-12 report: how many blocks and bytes a symbol's snapshot has. A refusal
/// carries its number, 0 and 0.
#[derive(Clone, Copy, PartialEq, Eq, Debug, Default)]
pub struct SnapshotSize {
    /// 0, or the refusal.
    pub number: u8,
    /// The blocks.
    pub blocks: usize,
    /// The bytes of all blocks.
    pub bytes: usize,
}

impl SnapshotSize {
    /// A refused call.
    pub fn refused(number: u8) -> SnapshotSize {
        SnapshotSize {
            number,
            ..SnapshotSize::default()
        }
    }
}

/// What trying an order reports (T-13). A refusal carries its number, no steps and 0.
#[derive(Clone, Copy, PartialEq, Eq, Debug, Default)]
pub struct Tried {
    /// 0, or the refusal.
    pub number: u8,
    /// How many steps stand in the output.
    pub steps: u8,
    /// The lots not found.
    pub unfilled: u32,
}

impl Tried {
    /// A refused order.
    pub fn refused(number: u8) -> Tried {
        Tried {
            number,
            ..Tried::default()
        }
    }
}

/// A quote book under its calls. Arguments are raw: a number may be out of range, a symbol,
/// block or buffer may have any length. Each call answers its number of document 01.
///
/// An implementation begins as a fresh book, memory for n symbols in which make has just answered
/// 0, and is lent all of this memory by every later call. So a later make answers 0 for the same n
/// only, and number 1 does not occur.
pub trait QuoteBook {
    /// Makes the book anew: no symbols, no lines, a closed day.
    fn make(&mut self, n: u32) -> u8;

    /// Adds a symbol with its round lot in shares and its primary letter, whose line may halt it.
    fn add_symbol(&mut self, symbol: &[u8], round_lot: u32, primary: u8) -> u8;

    /// Opens a line for a letter.
    fn open_line(&mut self, line: u32, letter: u8) -> u8;

    /// Start of Day.
    fn start_day(&mut self) -> u8;

    /// End of Day.
    fn end_day(&mut self) -> u8;

    /// Sets an allowance of blocks for each tick with a share for each line, and starts a tick.
    fn set_allowance(&mut self, blocks: u32, shares: &[u8]) -> u8;

    /// Starts the next tick.
    fn tick(&mut self) -> u8;

    /// Takes a block on a line. Of a taken block's message i, the answer buffer's bytes 4i to
    /// 4i + 3 are i, the code, the change flags and 0.
    fn take_block(&mut self, line: u32, block: &[u8], answer: &mut [u8]) -> Report;

    /// Reads a symbol's publication into the first 96 bytes of the buffer.
    fn read(&self, symbol: &[u8], publication: &mut [u8]) -> u8;

    /// Whether a national candidate bids a price or more (side mark B), or offers it or less (S).
    fn is_protected(&self, symbol: &[u8], side: u8, price: u64) -> Protected;

    /// How many bytes [`convert`](QuoteBook::convert) writes for a venue's block.
    fn convert_len(&self, block: &[u8]) -> Converted;

    /// Writes a venue's block as a run of blocks, end to end.
    fn convert(&self, block: &[u8], output: &mut [u8]) -> Converted;

    /// Tells how many blocks and bytes a symbol's snapshot has.
    fn snapshot_len(&self, symbol: &[u8]) -> SnapshotSize;

    /// Writes a symbol's snapshot at the output's front.
    fn snapshot(&self, symbol: &[u8], output: &mut [u8]) -> SnapshotSize;

    /// Plays an order of round lots, buying at the offers (side mark B) or selling at the bids (S), and
    /// lists its steps, 13 bytes each.
    fn try_order(&self, symbol: &[u8], side: u8, lots: u32, steps: &mut [u8]) -> Tried;
}
