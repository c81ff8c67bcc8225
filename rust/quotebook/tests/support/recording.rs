//! Calls as values, made on a recorder and on plain memory.

use quotebook::log::{Call, LogError, LoggedAnswer, Recorder, Sink};
use quotebook::{lent, Number};

/// What a call told, and its buffer, which was zeros.
#[derive(PartialEq, Eq, Debug)]
pub struct Told {
    pub report: [u64; 7],
    pub told: [u64; 2],
    pub buffer: Vec<u8>,
}

impl Told {
    /// Whether a replay answers the same.
    pub fn is(&self, answer: &LoggedAnswer) -> bool {
        let filled = [answer.answers, answer.publication, answer.output].concat();
        let behind = self.buffer.get(filled.len()..).unwrap_or_default();
        (self.report, self.told) == (answer.report, answer.told)
            && self.buffer.starts_with(&filled)
            && behind.iter().all(|&byte| byte == 0)
    }
}

fn bare(number: Number) -> [u64; 7] {
    let mut report = [0; 7];
    report[0] = u64::from(u8::from(number));
    report
}

/// Makes a call as a log's record has it.
pub fn record<W: Sink>(recorder: &mut Recorder<W>, call: &Call) -> Result<Told, LogError> {
    let mut raw = recorder.raw();
    let mut buffer = vec![0; room(call)];
    let mut told = [0; 2];
    let number = match *call {
        Call::Make { n } => raw.make(n)?,
        Call::AddSymbol {
            symbol,
            round_lot,
            primary,
        } => raw.add_symbol(symbol, round_lot, primary)?,
        Call::OpenLine { line, letter } => raw.open_line(line, letter)?,
        Call::StartDay => raw.start_day()?,
        Call::EndDay => raw.end_day()?,
        Call::SetAllowance { blocks, shares } => raw.set_allowance(blocks, shares)?,
        Call::Tick => raw.tick()?,
        Call::TakeBlock { line, block, .. } => {
            let taken = raw.take_block(line, block, &mut buffer)?;
            let mut report = bare(taken.number);
            report[3] = taken.count;
            let counts = [taken.accepted, taken.partly, taken.rejected];
            report[4..].copy_from_slice(&counts.map(u64::from));
            (report[1], report[2]) = (u64::from(taken.gap), u64::from(taken.expected));
            return Ok(Told {
                report,
                told,
                buffer,
            });
        }
        Call::Read { symbol, .. } => raw.read(symbol, &mut buffer)?,
        Call::IsProtected {
            symbol,
            side,
            price,
        } => {
            let asked = raw.is_protected(symbol, side, price)?;
            told = [u64::from(asked.yes), u64::from(asked.looked)];
            asked.number
        }
        Call::ConvertLen { block } => {
            let converted = raw.convert_len(block)?;
            told[1] = converted.len as u64;
            converted.number
        }
        Call::Convert { block, .. } => {
            let converted = raw.convert(block, &mut buffer)?;
            told[1] = converted.len as u64;
            converted.number
        }
        Call::SnapshotLen { symbol } => {
            let size = raw.snapshot_len(symbol)?;
            told = [size.blocks as u64, size.bytes as u64];
            size.number
        }
        Call::Snapshot { symbol, .. } => {
            let size = raw.snapshot(symbol, &mut buffer)?;
            told = [size.blocks as u64, size.bytes as u64];
            size.number
        }
        Call::TryOrder {
            symbol, side, lots, ..
        } => {
            let tried = raw.try_order(symbol, side, lots, &mut buffer)?;
            told = [tried.steps as u64, u64::from(tried.unfilled)];
            tried.number
        }
    };
    Ok(Told {
        report: bare(number),
        told,
        buffer,
    })
}

/// Makes a call on a book without a log, if it is one that may change it.
pub fn change(book: &mut [u8], call: &Call) {
    match *call {
        Call::Make { n } => drop(lent::make(book, n)),
        Call::AddSymbol {
            symbol,
            round_lot,
            primary,
        } => drop(lent::add_symbol(book, symbol, round_lot, primary)),
        Call::OpenLine { line, letter } => drop(lent::open_line(book, line, letter)),
        Call::StartDay => drop(lent::start_day(book)),
        Call::EndDay => drop(lent::end_day(book)),
        Call::SetAllowance { blocks, shares } => drop(lent::set_allowance(book, blocks, shares)),
        Call::Tick => drop(lent::tick(book)),
        Call::TakeBlock { line, block, .. } => {
            lent::take_block(book, line, block, &mut vec![0; room(call)]);
        }
        _ => {}
    }
}

/// The length of a call's buffer.
fn room(call: &Call) -> usize {
    match *call {
        Call::TakeBlock { room, .. }
        | Call::Read { room, .. }
        | Call::Convert { room, .. }
        | Call::Snapshot { room, .. }
        | Call::TryOrder { room, .. } => room as usize,
        _ => 0,
    }
}
