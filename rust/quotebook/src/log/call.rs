//! The calls of a log, and the records that hold them.

use super::{check, CHECK_LEN, KIND_AT, RECORD_MAX, RECORD_MIN};

/// The most bytes of a call's numbers.
const NUMBERS_MAX: usize = 13;
/// With so many lent bytes, no record is over [`RECORD_MAX`].
pub(super) const LENT_MAX: usize = RECORD_MAX - RECORD_MIN - NUMBERS_MAX;

/// A call with its raw arguments: numbers may be out of range, and lent bytes may be any.
#[derive(Clone, Copy, PartialEq, Eq, Debug)]
pub enum Call<'a> {
    /// Make a book.
    Make {
        /// The number of symbols.
        n: u32,
    },
    /// Add a symbol.
    AddSymbol {
        /// The symbol.
        symbol: &'a [u8],
        /// The round lot in shares.
        round_lot: u32,
        /// The primary letter.
        primary: u8,
    },
    /// Open a line.
    OpenLine {
        /// The line.
        line: u32,
        /// Its letter.
        letter: u8,
    },
    /// Start of Day.
    StartDay,
    /// End of Day.
    EndDay,
    /// Take a block on a line.
    TakeBlock {
        /// The line.
        line: u32,
        /// The block.
        block: &'a [u8],
        /// The length of the answer buffer.
        room: u64,
    },
    /// Read a symbol's publication.
    Read {
        /// The symbol.
        symbol: &'a [u8],
        /// The length of the publication buffer.
        room: u64,
    },
    /// Ask whether a price is protected.
    IsProtected {
        /// The symbol.
        symbol: &'a [u8],
        /// The side mark.
        side: u8,
        /// The price, with six implied decimals.
        price: u64,
    },
    /// Ask for the length of a conversion.
    ConvertLen {
        /// The venue's block.
        block: &'a [u8],
    },
    /// Convert a venue's block.
    Convert {
        /// The venue's block.
        block: &'a [u8],
        /// The length of the output.
        room: u64,
    },
    /// Ask for the length of a snapshot.
    SnapshotLen {
        /// The symbol.
        symbol: &'a [u8],
    },
    /// Write a symbol's snapshot.
    Snapshot {
        /// The symbol.
        symbol: &'a [u8],
        /// The length of the output.
        room: u64,
    },
    /// Try an order.
    TryOrder {
        /// The symbol.
        symbol: &'a [u8],
        /// The side mark.
        side: u8,
        /// The round lots wanted.
        lots: u32,
        /// The length of the output.
        room: u64,
    },
    /// Set an allowance of blocks.
    SetAllowance {
        /// The blocks for each tick.
        blocks: u32,
        /// The lines' shares.
        shares: &'a [u8],
    },
    /// Start the next tick.
    Tick,
}

impl<'a> Call<'a> {
    /// The call that a record of this kind holds; none if its arguments are not those of one.
    pub fn read(kind: u8, arguments: &'a [u8]) -> Option<Call<'a>> {
        let mut left = Arguments(arguments);
        let call = match kind {
            1 => Call::Make { n: left.u32()? },
            2 => Call::AddSymbol {
                round_lot: left.u32()?,
                primary: left.u8()?,
                symbol: left.rest(),
            },
            3 => Call::OpenLine {
                line: left.u32()?,
                letter: left.u8()?,
            },
            4 => Call::StartDay,
            5 => Call::EndDay,
            6 => Call::TakeBlock {
                line: left.u32()?,
                room: left.u64()?,
                block: left.rest(),
            },
            7 => Call::Read {
                room: left.u64()?,
                symbol: left.rest(),
            },
            8 => Call::IsProtected {
                side: left.u8()?,
                price: left.u64()?,
                symbol: left.rest(),
            },
            9 => Call::ConvertLen { block: left.rest() },
            10 => Call::Convert {
                room: left.u64()?,
                block: left.rest(),
            },
            11 => Call::SnapshotLen {
                symbol: left.rest(),
            },
            12 => Call::Snapshot {
                room: left.u64()?,
                symbol: left.rest(),
            },
            13 => Call::TryOrder {
                side: left.u8()?,
                lots: left.u32()?,
                room: left.u64()?,
                symbol: left.rest(),
            },
            14 => Call::SetAllowance {
                blocks: left.u32()?,
                shares: left.rest(),
            },
            15 => Call::Tick,
            _ => return None,
        };
        left.0.is_empty().then_some(call)
    }

    /// The kind of its record.
    pub fn kind(&self) -> u8 {
        match self {
            Call::Make { .. } => 1,
            Call::AddSymbol { .. } => 2,
            Call::OpenLine { .. } => 3,
            Call::StartDay => 4,
            Call::EndDay => 5,
            Call::TakeBlock { .. } => 6,
            Call::Read { .. } => 7,
            Call::IsProtected { .. } => 8,
            Call::ConvertLen { .. } => 9,
            Call::Convert { .. } => 10,
            Call::SnapshotLen { .. } => 11,
            Call::Snapshot { .. } => 12,
            Call::TryOrder { .. } => 13,
            Call::SetAllowance { .. } => 14,
            Call::Tick => 15,
        }
    }

    /// The bytes that it is lent to read: a symbol, a block or shares.
    pub fn lent(&self) -> &'a [u8] {
        match *self {
            Call::Make { .. } | Call::OpenLine { .. } => &[],
            Call::StartDay | Call::EndDay | Call::Tick => &[],
            Call::AddSymbol { symbol, .. }
            | Call::Read { symbol, .. }
            | Call::IsProtected { symbol, .. }
            | Call::SnapshotLen { symbol }
            | Call::Snapshot { symbol, .. }
            | Call::TryOrder { symbol, .. } => symbol,
            Call::TakeBlock { block, .. }
            | Call::ConvertLen { block }
            | Call::Convert { block, .. } => block,
            Call::SetAllowance { shares, .. } => shares,
        }
    }

    /// Appends the call's record with its arrival time, in any unit.
    ///
    /// # Panics
    ///
    /// If the record has 4 GiB or more.
    pub fn write(&self, time: u64, log: &mut Vec<u8>) {
        let at = log.len();
        log.reserve(RECORD_MIN + NUMBERS_MAX + self.lent().len());
        log.extend([0; KIND_AT]);
        log.push(self.kind());
        log.extend(time.to_be_bytes());
        match *self {
            Call::Make { n } => log.extend(n.to_be_bytes()),
            Call::AddSymbol {
                round_lot, primary, ..
            } => {
                log.extend(round_lot.to_be_bytes());
                log.push(primary);
            }
            Call::OpenLine { line, letter } => {
                log.extend(line.to_be_bytes());
                log.push(letter);
            }
            Call::TakeBlock { line, room, .. } => {
                log.extend(line.to_be_bytes());
                log.extend(room.to_be_bytes());
            }
            Call::Read { room, .. } | Call::Convert { room, .. } | Call::Snapshot { room, .. } => {
                log.extend(room.to_be_bytes());
            }
            Call::IsProtected { side, price, .. } => {
                log.push(side);
                log.extend(price.to_be_bytes());
            }
            Call::TryOrder {
                side, lots, room, ..
            } => {
                log.push(side);
                log.extend(lots.to_be_bytes());
                log.extend(room.to_be_bytes());
            }
            Call::SetAllowance { blocks, .. } => log.extend(blocks.to_be_bytes()),
            Call::StartDay | Call::EndDay | Call::Tick => {}
            Call::ConvertLen { .. } | Call::SnapshotLen { .. } => {}
        }
        log.extend(self.lent());
        let len = u32::try_from(log.len() - at + CHECK_LEN).expect("a record is under 4 GiB");
        log[at..at + KIND_AT].copy_from_slice(&len.to_be_bytes());
        let check = check(&log[at..]);
        log.extend(check.to_be_bytes());
    }
}

/// What is left of a record's arguments.
struct Arguments<'a>(&'a [u8]);

impl<'a> Arguments<'a> {
    fn first<const LEN: usize>(&mut self) -> Option<[u8; LEN]> {
        let (first, left) = self.0.split_first_chunk()?;
        self.0 = left;
        Some(*first)
    }

    fn u8(&mut self) -> Option<u8> {
        self.first().map(u8::from_be_bytes)
    }

    fn u32(&mut self) -> Option<u32> {
        self.first().map(u32::from_be_bytes)
    }

    fn u64(&mut self) -> Option<u64> {
        self.first().map(u64::from_be_bytes)
    }

    fn rest(&mut self) -> &'a [u8] {
        std::mem::take(&mut self.0)
    }
}
