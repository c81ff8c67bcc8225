//! The proved library as a book that is called like the second implementation's.

use quotebook::lent;
use quotebook::log::Call;
use quotebook::snapshot::SNAPSHOT_MAX;
use second::{Converted, Protected, QuoteBook, Report, SnapshotSize, Tried};

/// Memory that is lent to the library.
#[derive(Clone, PartialEq, Eq)]
pub struct Library {
    pub memory: Vec<u8>,
}

impl Library {
    /// A fresh book of n symbols. Of an n that is not 1 to 64 it is no book, and every call says so.
    pub fn fresh(n: u8) -> Library {
        let len = lent::book_len(n.into()).unwrap_or(0);
        let mut memory = vec![0; len];
        lent::make(&mut memory, n.into());
        Library { memory }
    }
}

impl QuoteBook for Library {
    fn make(&mut self, n: u32) -> u8 {
        lent::make(&mut self.memory, n).into()
    }

    fn add_symbol(&mut self, symbol: &[u8], round_lot: u32, primary: u8) -> u8 {
        lent::add_symbol(&mut self.memory, symbol, round_lot, primary).into()
    }

    fn open_line(&mut self, line: u32, letter: u8) -> u8 {
        lent::open_line(&mut self.memory, line, letter).into()
    }

    fn start_day(&mut self) -> u8 {
        lent::start_day(&mut self.memory).into()
    }

    fn end_day(&mut self) -> u8 {
        lent::end_day(&mut self.memory).into()
    }

    fn set_allowance(&mut self, blocks: u32, shares: &[u8]) -> u8 {
        lent::set_allowance(&mut self.memory, blocks, shares).into()
    }

    fn tick(&mut self) -> u8 {
        lent::tick(&mut self.memory).into()
    }

    fn take_block(&mut self, line: u32, block: &[u8], answer: &mut [u8]) -> Report {
        let report = lent::take_block(&mut self.memory, line, block, answer);
        Report {
            number: report.number.into(),
            gap: report.gap,
            expected: report.expected,
            count: report.count,
            accepted: report.accepted,
            partly: report.partly,
            rejected: report.rejected,
        }
    }

    fn read(&self, symbol: &[u8], publication: &mut [u8]) -> u8 {
        lent::read(&self.memory, symbol, publication).into()
    }

    fn is_protected(&self, symbol: &[u8], side: u8, price: u64) -> Protected {
        let told = lent::is_protected(&self.memory, symbol, side, price);
        Protected {
            number: told.number.into(),
            yes: told.yes,
            looked: told.looked,
        }
    }

    fn convert_len(&self, block: &[u8]) -> Converted {
        let told = lent::convert_len(&self.memory, block);
        Converted {
            number: told.number.into(),
            len: told.len,
        }
    }

    fn convert(&self, block: &[u8], output: &mut [u8]) -> Converted {
        let told = lent::convert(&self.memory, block, output);
        Converted {
            number: told.number.into(),
            len: told.len,
        }
    }

    fn snapshot_len(&self, symbol: &[u8]) -> SnapshotSize {
        size(lent::snapshot_len(&self.memory, symbol))
    }

    fn snapshot(&self, symbol: &[u8], output: &mut [u8]) -> SnapshotSize {
        size(lent::snapshot(&self.memory, symbol, output))
    }

    fn try_order(&self, symbol: &[u8], side: u8, lots: u32, steps: &mut [u8]) -> Tried {
        let told = lent::try_order(&self.memory, symbol, side, lots, steps);
        Tried {
            number: told.number.into(),
            steps: told.steps as u8,
            unfilled: told.unfilled,
        }
    }
}

fn size(told: quotebook::snapshot::SnapshotSize) -> SnapshotSize {
    SnapshotSize {
        number: told.number.into(),
        blocks: told.blocks,
        bytes: told.bytes,
    }
}

/// All that a call answers.
#[derive(Clone, PartialEq, Eq, Debug, Default)]
pub struct Done {
    /// 0, 70 or the refusal.
    pub number: u8,
    /// What the block call reports.
    pub report: Option<Report>,
    /// What a query tells: as docs/LOG.md's numbers 8 and 9.
    pub told: [u64; 2],
    /// The bytes that it filled: answers, a publication or an output.
    pub filled: Vec<u8>,
}

/// Carries out a call. A buffer is lent as long as the call was lent, but no longer than matters.
pub fn carry_out(book: &mut impl QuoteBook, call: &Call) -> Done {
    let buffer = |room: u64, longest: usize| {
        let room = usize::try_from(room).unwrap_or(longest);
        vec![0; room.min(longest)]
    };
    let number = |number: u8| Done {
        number,
        ..Done::default()
    };
    match *call {
        Call::Make { n } => number(book.make(n)),
        Call::AddSymbol {
            symbol,
            round_lot,
            primary,
        } => number(book.add_symbol(symbol, round_lot, primary)),
        Call::OpenLine { line, letter } => number(book.open_line(line, letter)),
        Call::StartDay => number(book.start_day()),
        Call::EndDay => number(book.end_day()),
        Call::SetAllowance { blocks, shares } => number(book.set_allowance(blocks, shares)),
        Call::Tick => number(book.tick()),
        Call::TakeBlock { line, block, room } => {
            let mut filled = buffer(room, lent::ANSWER_LEN);
            let report = book.take_block(line, block, &mut filled);
            let messages = report.accepted + report.partly + report.rejected;
            filled.truncate(4 * messages as usize);
            Done {
                number: report.number,
                report: Some(report),
                filled,
                ..Done::default()
            }
        }
        Call::Read { symbol, room } => {
            let mut filled = buffer(room, lent::PUBLICATION_LEN);
            let number = book.read(symbol, &mut filled);
            if number != 0 {
                filled.clear();
            }
            Done {
                number,
                filled,
                ..Done::default()
            }
        }
        Call::IsProtected {
            symbol,
            side,
            price,
        } => {
            let told = book.is_protected(symbol, side, price);
            Done {
                number: told.number,
                told: [told.yes.into(), told.looked.into()],
                ..Done::default()
            }
        }
        Call::ConvertLen { block } => {
            let told = book.convert_len(block);
            Done {
                number: told.number,
                told: [0, told.len as u64],
                ..Done::default()
            }
        }
        Call::Convert { block, room } => {
            let mut filled = buffer(room, lent::RUN_MAX);
            let told = book.convert(block, &mut filled);
            filled.truncate(told.len);
            Done {
                number: told.number,
                told: [0, told.len as u64],
                filled,
                ..Done::default()
            }
        }
        Call::SnapshotLen { symbol } => {
            let told = book.snapshot_len(symbol);
            Done {
                number: told.number,
                told: [told.blocks as u64, told.bytes as u64],
                ..Done::default()
            }
        }
        Call::Snapshot { symbol, room } => {
            let mut filled = buffer(room, SNAPSHOT_MAX);
            let told = book.snapshot(symbol, &mut filled);
            filled.truncate(told.bytes);
            Done {
                number: told.number,
                told: [told.blocks as u64, told.bytes as u64],
                filled,
                ..Done::default()
            }
        }
        Call::TryOrder {
            symbol,
            side,
            lots,
            room,
        } => {
            let mut filled = buffer(room, lent::STEPS_LEN);
            let told = book.try_order(symbol, side, lots, &mut filled);
            filled.truncate(usize::from(told.steps) * lent::STEP_LEN);
            Done {
                number: told.number,
                told: [told.steps.into(), told.unfilled.into()],
                filled,
                ..Done::default()
            }
        }
    }
}

/// What a call is called.
pub fn name(call: &Call) -> &'static str {
    match call {
        Call::Make { .. } => "make",
        Call::AddSymbol { .. } => "add symbol",
        Call::OpenLine { .. } => "open line",
        Call::StartDay => "Start of Day",
        Call::EndDay => "End of Day",
        Call::SetAllowance { .. } => "set allowance",
        Call::Tick => "tick",
        Call::TakeBlock { .. } => "block",
        Call::Read { .. } => "read",
        Call::IsProtected { .. } => "protected",
        Call::ConvertLen { .. } => "length of a conversion",
        Call::Convert { .. } => "convert",
        Call::SnapshotLen { .. } => "length of a snapshot",
        Call::Snapshot { .. } => "snapshot",
        Call::TryOrder { .. } => "try",
    }
}
