//! The log of calls, read and written from docs/LOG.md alone.

mod generate;
pub mod mistake;
mod reached;

use crate::call::Call;
use crate::quote_book::QuoteBook;
pub use generate::{damaged, log_of, small};
pub use reached::Reached;

/// The length of a head.
pub const HEAD_LEN: usize = 16;
const MARK: &[u8] = b"QBOOKLOG";
const VERSION: u8 = 1;
/// The requests that the calls follow: T-01 to T-14.
pub const REQUESTS: u16 = 0x3fff;
/// The length of a record without arguments.
pub const RECORD_LEN: usize = 17;
/// The most bytes of an answer.
pub const ANSWER_MOST: usize = 3696;
/// No call fills more bytes of a buffer than this.
const FILLED_MOST: usize = 3600;

/// Numbers that reading a log stops with.
pub mod number {
    /// The log ends behind a whole record.
    pub const END: u8 = 0;
    /// The book of the head cannot be made in this memory.
    pub const MAKE: u8 = 2;
    /// The log does not begin with a head.
    pub const HEAD: u8 = 90;
    /// The log ends inside a record.
    pub const CUT: u8 = 91;
    /// A record is damaged.
    pub const DAMAGED: u8 = 92;
    /// The output may be too short for one more answer.
    pub const ROOM: u8 = 93;
}

/// The widths of the numbers of each kind of call, from kind 1 on, and whether lent bytes follow.
const KINDS: [(&[usize], bool); 15] = [
    (&[4], false),
    (&[4, 1], true),
    (&[4, 1], false),
    (&[], false),
    (&[], false),
    (&[4, 8], true),
    (&[8], true),
    (&[1, 8], true),
    (&[], true),
    (&[8], true),
    (&[], true),
    (&[8], true),
    (&[1, 4, 8], true),
    (&[4], true),
    (&[], false),
];

/// How many kinds there are.
pub const KINDS_COUNT: u8 = KINDS.len() as u8;

fn be(bytes: &[u8]) -> u64 {
    bytes
        .iter()
        .fold(0, |number, &byte| number << 8 | u64::from(byte))
}

fn to_be(number: u64, width: usize) -> Vec<u8> {
    number.to_be_bytes()[8 - width..].to_vec()
}

/// The check of some bytes.
pub fn check(bytes: &[u8]) -> u32 {
    let whole = bytes.len() / 4 * 4;
    let words = bytes[..whole].chunks(4).map(be);
    let last = bytes[whole..].iter().map(|&byte| u64::from(byte));
    words.chain(last).fold(2_166_136_261, |h: u64, x| {
        (16_777_619 * h + x) % 4_294_967_296
    }) as u32
}

/// A head.
pub fn head(n: u8, requests: u16) -> Vec<u8> {
    let mut head = [MARK, &[VERSION, n], &requests.to_be_bytes()].concat();
    head.extend(check(&head).to_be_bytes());
    head
}

/// n and the requests of the head that a log begins with.
pub fn read_head<const M: u8>(log: &[u8]) -> Option<(u8, u16)> {
    if log.len() < HEAD_LEN {
        return None;
    }
    let requests = be(&log[10..12]) as u16;
    let right = (&log[..8] == MARK || M == mistake::HEAD_MARK_NOT_READ)
        && (log[8] == VERSION || M == mistake::HEAD_VERSION_NOT_READ)
        && (be(&log[12..16]) == u64::from(check(&log[..12])) || M == mistake::HEAD_CHECK_NOT_READ)
        && (requests == REQUESTS || M != mistake::REQUESTS_READ);
    right.then_some((log[9], requests))
}

/// A record of any kind and arguments.
pub fn record(kind: u8, time: u64, arguments: &[u8]) -> Vec<u8> {
    let len = (RECORD_LEN + arguments.len()) as u32;
    let mut record = [
        &len.to_be_bytes()[..],
        &[kind],
        &time.to_be_bytes(),
        arguments,
    ]
    .concat();
    record.extend(check(&record).to_be_bytes());
    record
}

/// The record of a call.
pub fn write(call: &Call, time: u64) -> Vec<u8> {
    let (kind, numbers, lent) = parts(call);
    let (widths, _) = KINDS[usize::from(kind) - 1];
    let mut arguments: Vec<u8> = Vec::new();
    for (&number, &width) in numbers.iter().zip(widths) {
        arguments.extend(to_be(number, width));
    }
    arguments.extend(lent);
    record(kind, time, &arguments)
}

/// Kind, numbers and lent bytes of a call.
fn parts(call: &Call) -> (u8, Vec<u64>, &[u8]) {
    match call {
        Call::Make { n } => (1, vec![u64::from(*n)], &[]),
        Call::AddSymbol {
            symbol,
            round_lot,
            primary,
        } => (2, vec![u64::from(*round_lot), u64::from(*primary)], symbol),
        Call::OpenLine { line, letter } => (3, vec![u64::from(*line), u64::from(*letter)], &[]),
        Call::StartDay => (4, vec![], &[]),
        Call::EndDay => (5, vec![], &[]),
        Call::TakeBlock {
            line,
            block,
            answer_len,
        } => (6, vec![u64::from(*line), *answer_len as u64], block),
        Call::Read {
            symbol,
            publication_len,
        } => (7, vec![*publication_len as u64], symbol),
        Call::IsProtected {
            symbol,
            side,
            price,
        } => (8, vec![u64::from(*side), *price], symbol),
        Call::ConvertLen { block } => (9, vec![], block),
        Call::Convert { block, output_len } => (10, vec![*output_len as u64], block),
        Call::SnapshotLen { symbol } => (11, vec![], symbol),
        Call::Snapshot { symbol, output_len } => (12, vec![*output_len as u64], symbol),
        Call::TryOrder {
            symbol,
            side,
            lots,
            steps_len,
        } => (
            13,
            vec![u64::from(*side), u64::from(*lots), *steps_len as u64],
            symbol,
        ),
        Call::SetAllowance { blocks, shares } => (14, vec![u64::from(*blocks)], shares),
        Call::Tick => (15, vec![], &[]),
    }
}

/// The call of a kind with these numbers and lent bytes.
fn call(kind: u8, numbers: &[u64], lent: &[u8]) -> Option<Call> {
    let lent = lent.to_vec();
    Some(match (kind, numbers) {
        (1, &[n]) => Call::Make { n: n as u32 },
        (2, &[round_lot, primary]) => Call::AddSymbol {
            symbol: lent,
            round_lot: round_lot as u32,
            primary: primary as u8,
        },
        (3, &[line, letter]) => Call::OpenLine {
            line: line as u32,
            letter: letter as u8,
        },
        (4, []) => Call::StartDay,
        (5, []) => Call::EndDay,
        (6, &[line, room]) => Call::TakeBlock {
            line: line as u32,
            block: lent,
            answer_len: room as usize,
        },
        (7, &[room]) => Call::Read {
            symbol: lent,
            publication_len: room as usize,
        },
        (8, &[side, price]) => Call::IsProtected {
            symbol: lent,
            side: side as u8,
            price,
        },
        (9, []) => Call::ConvertLen { block: lent },
        (10, &[room]) => Call::Convert {
            block: lent,
            output_len: room as usize,
        },
        (11, []) => Call::SnapshotLen { symbol: lent },
        (12, &[room]) => Call::Snapshot {
            symbol: lent,
            output_len: room as usize,
        },
        (13, &[side, lots, room]) => Call::TryOrder {
            symbol: lent,
            side: side as u8,
            lots: lots as u32,
            steps_len: room as usize,
        },
        (14, &[blocks]) => Call::SetAllowance {
            blocks: blocks as u32,
            shares: lent,
        },
        (15, []) => Call::Tick,
        _ => return None,
    })
}

/// What stands at a place of a log.
#[derive(Clone, PartialEq, Eq, Debug)]
pub enum Next {
    /// A call, its arrival time, and where the next record begins.
    Call(Call, u64, usize),
    /// The number that reading stops with.
    Stop(u8),
    /// Nothing that a mistaken reading looks at; it goes on there.
    Pass(usize),
}

/// What stands at a place of a log, under a planted mistake (0 for none).
pub fn next<const M: u8>(log: &[u8], at: usize) -> Next {
    let left = log.get(at..).unwrap_or_default();
    if left.is_empty() {
        return Next::Stop(match M {
            mistake::END_CUT => number::CUT,
            _ => number::END,
        });
    }
    if left.len() < RECORD_LEN {
        return Next::Stop(match M {
            mistake::FEW_BYTES_DAMAGED => number::DAMAGED,
            _ => number::CUT,
        });
    }
    let len = be(&left[..4]) as usize;
    if len < RECORD_LEN {
        return Next::Stop(match M {
            mistake::SHORT_LENGTH_CUT => number::CUT,
            _ => number::DAMAGED,
        });
    }
    if len > left.len() {
        return Next::Stop(match M {
            mistake::BEYOND_END_DAMAGED => number::DAMAGED,
            _ => number::CUT,
        });
    }
    let (record, told) = left[..len].split_at(len - 4);
    if !is_checked::<M>(record, be(told) as u32) {
        return match M {
            mistake::FIRST_DAMAGE_PASSED => Next::Pass(at + len),
            _ => Next::Stop(number::DAMAGED),
        };
    }
    let (kind, arguments) = (record[4], &record[13..]);
    match read_call::<M>(kind, arguments) {
        Some(_) if M == mistake::QUERIES_PASSED && (7..=13).contains(&kind) => Next::Pass(at + len),
        Some(call) => Next::Call(call, be(&record[5..13]), at + len),
        None if M == mistake::UNKNOWN_PASSED && !(1..=KINDS_COUNT).contains(&kind) => {
            Next::Pass(at + len)
        }
        None if M == mistake::NO_CALL_PASSED && (1..=KINDS_COUNT).contains(&kind) => {
            Next::Pass(at + len)
        }
        None => Next::Stop(number::DAMAGED),
    }
}

fn is_checked<const M: u8>(record: &[u8], told: u32) -> bool {
    match M {
        mistake::CHECK_NOT_READ => true,
        mistake::CHECK_OF_ARGUMENTS => check(&record[4..]) == told,
        mistake::CHECK_BY_BYTES => {
            let by_bytes = record.iter().fold(2_166_136_261, |h: u32, &x| {
                h.wrapping_mul(16_777_619).wrapping_add(u32::from(x))
            });
            by_bytes == told
        }
        _ => check(record) == told,
    }
}

fn read_call<const M: u8>(kind: u8, arguments: &[u8]) -> Option<Call> {
    let &(widths, lends) = KINDS.get(usize::from(kind).checked_sub(1)?)?;
    let len: usize = widths.iter().sum();
    if arguments.len() < len {
        return None;
    }
    if arguments.len() > len && !lends && M != mistake::LONGER_TAKEN {
        return None;
    }
    let (mut numbers, mut lent) = arguments.split_at(len);
    if M == mistake::BYTES_FIRST {
        (lent, numbers) = arguments.split_at(arguments.len() - len);
    }
    let mut read = Vec::new();
    for &width in widths {
        let (number, rest) = numbers.split_at(width);
        read.push(be(number));
        numbers = rest;
    }
    if M == mistake::LENGTHS_OF_32_BITS && kind != 8 && widths.last() == Some(&8) {
        let last = read.len() - 1;
        read[last] &= 0xffff_ffff;
    }
    call(kind, &read, lent)
}

/// What a replay gives.
#[derive(Clone, PartialEq, Eq, Debug)]
pub struct Replayed {
    /// The number that it stopped with.
    pub number: u8,
    /// Where it stopped in the log.
    pub place: usize,
    /// The bytes of the answers.
    pub answers: Vec<u8>,
}

/// Carries out the calls of a log from a place on, as long as the output has room for answers.
pub fn replay<const M: u8>(
    book: &mut dyn QuoteBook,
    log: &[u8],
    from: usize,
    room: usize,
) -> Replayed {
    let mut answers = Vec::new();
    let mut at = match M {
        mistake::FROM_IGNORED => HEAD_LEN,
        _ => from,
    };
    let number = loop {
        let left = room - answers.len();
        if M == mistake::ROOM_BEFORE_RECORD && left < ANSWER_MOST {
            break number::ROOM;
        }
        match next::<M>(log, at) {
            Next::Stop(number) => {
                if M == mistake::STOP_BEHIND && number == number::DAMAGED {
                    at += (be(&log[at..at + 4]) as usize).min(log.len() - at);
                }
                break number;
            }
            Next::Pass(next) => at = next,
            Next::Call(call, _, next) => {
                let enough = match M {
                    mistake::ROOM_OF_3600 => FILLED_MOST,
                    mistake::JUST_ENOUGH_REFUSED => ANSWER_MOST + 1,
                    _ => ANSWER_MOST,
                };
                if left < enough {
                    break number::ROOM;
                }
                answers.extend(answer::<M>(book, &call));
                at = next;
            }
        }
    };
    Replayed {
        number,
        place: at,
        answers,
    }
}

/// Makes the book of the head in memory for a book of n symbols, and replays the records.
pub fn restore<const M: u8>(book: &mut dyn QuoteBook, log: &[u8], room: usize) -> Replayed {
    let stopped = |number| Replayed {
        number,
        place: 0,
        answers: Vec::new(),
    };
    let Some((n, _)) = read_head::<M>(log) else {
        return stopped(number::HEAD);
    };
    if M != mistake::MAKE_NOT_DONE && book.make(u32::from(n)) != 0 {
        return stopped(number::MAKE);
    }
    replay::<M>(book, log, HEAD_LEN, room)
}

/// A call's buffer: longer ones are answered alike.
fn buffer(len: usize) -> Vec<u8> {
    vec![0; len.min(FILLED_MOST)]
}

/// Carries out a call: the bytes of its answer.
fn answer<const M: u8>(book: &mut dyn QuoteBook, call: &Call) -> Vec<u8> {
    let mut report = [0; 7];
    let mut told = [0; 2];
    let [mut answers, mut publication, mut output] = [Vec::new(), Vec::new(), Vec::new()];
    match call {
        Call::Make { n } => report[0] = u64::from(book.make(*n)),
        Call::AddSymbol {
            symbol,
            round_lot,
            primary,
        } => report[0] = u64::from(book.add_symbol(symbol, *round_lot, *primary)),
        Call::OpenLine { line, letter } => report[0] = u64::from(book.open_line(*line, *letter)),
        Call::StartDay => report[0] = u64::from(book.start_day()),
        Call::EndDay => report[0] = u64::from(book.end_day()),
        Call::SetAllowance { blocks, shares } => {
            report[0] = u64::from(book.set_allowance(*blocks, shares));
        }
        Call::Tick => report[0] = u64::from(book.tick()),
        Call::TakeBlock {
            line,
            block,
            answer_len,
        } => {
            answers = buffer(*answer_len);
            let taken = book.take_block(*line, block, &mut answers);
            report = taken.fields();
            let mut messages = (taken.accepted + taken.partly + taken.rejected) as usize;
            if M == mistake::UNFILLED_TOLD && messages == 0 {
                messages = block.get(1).map_or(0, |&count| usize::from(count));
            }
            answers.resize(4 * messages, 0);
        }
        Call::Read {
            symbol,
            publication_len,
        } => {
            publication = buffer(*publication_len);
            let number = book.read(symbol, &mut publication);
            report[0] = u64::from(number);
            publication.truncate(if number == 0 { 96 } else { 0 });
        }
        Call::IsProtected {
            symbol,
            side,
            price,
        } => {
            let asked = book.is_protected(symbol, *side, *price);
            report[0] = u64::from(asked.number);
            told = [u64::from(asked.yes), u64::from(asked.looked)];
        }
        Call::ConvertLen { block } => {
            let converted = book.convert_len(block);
            report[0] = u64::from(converted.number);
            told[1] = converted.len as u64;
        }
        Call::Convert { block, output_len } => {
            output = buffer(*output_len);
            let converted = book.convert(block, &mut output);
            report[0] = u64::from(converted.number);
            if M != mistake::RUN_NOT_TOLD {
                told[1] = converted.len as u64;
            }
            output.truncate(converted.len);
        }
        Call::SnapshotLen { symbol } => {
            let size = book.snapshot_len(symbol);
            report[0] = u64::from(size.number);
            told = [size.blocks as u64, size.bytes as u64];
        }
        Call::Snapshot { symbol, output_len } => {
            output = buffer(*output_len);
            let size = book.snapshot(symbol, &mut output);
            report[0] = u64::from(size.number);
            told = [size.blocks as u64, size.bytes as u64];
            output.truncate(size.bytes);
        }
        Call::TryOrder {
            symbol,
            side,
            lots,
            steps_len,
        } => {
            output = buffer(*steps_len);
            let tried = book.try_order(symbol, *side, *lots, &mut output);
            report[0] = u64::from(tried.number);
            told = [u64::from(tried.steps), u64::from(tried.unfilled)];
            output.truncate(13 * usize::from(tried.steps));
        }
    }
    if M == mistake::REFUSED_UNANSWERED && ![0, 70].contains(&report[0]) {
        return Vec::new();
    }
    if M == mistake::PUBLICATION_AS_OUTPUT {
        std::mem::swap(&mut publication, &mut output);
    }
    let lengths = [answers.len(), publication.len(), output.len()].map(|len| len as u64);
    let numbers = report.into_iter().chain(told).chain(lengths);
    let mut bytes: Vec<u8> = numbers.flat_map(u64::to_be_bytes).collect();
    bytes.extend([answers, publication, output].concat());
    bytes
}
