//! Where the fields of a snapshot stand, in blocks and in messages.

use super::{LetterQuote, Snapshot, SnapshotError};
use crate::lent::{BLOCK_MAX, SYMBOL_LEN};
use crate::price::Price;
use crate::publication::Entry;

const VERSION: u8 = 11;
const HEADER_LEN: usize = 24;
const CHECKSUM_AT: usize = 22;
const MESSAGE_HEADER_LEN: usize = 5;
const CONSOLIDATED_LEN: usize = 102;
const PARTICIPANT_LEN: usize = 62;
const FINRA_LEN: usize = 68;

fn array<const N: usize>(bytes: &[u8], at: usize) -> Option<[u8; N]> {
    bytes.get(at..)?.first_chunk().copied()
}

fn short(bytes: &[u8], at: usize) -> Option<usize> {
    array(bytes, at).map(|field| u16::from_be_bytes(field).into())
}

/// The first block by its size, and the bytes behind it; none if no whole block stands there.
pub fn split_block(bytes: &[u8]) -> Option<(&[u8], &[u8])> {
    let size = short(bytes, 1)?;
    if size < HEADER_LEN {
        return None;
    }
    bytes.split_at_checked(size)
}

/// The messages of all blocks.
fn messages(bytes: &[u8]) -> Result<Vec<&[u8]>, SnapshotError> {
    let mut messages = Vec::new();
    let mut rest = bytes;
    loop {
        let (block, behind) = split_block(rest).ok_or(SnapshotError::BlockSize)?;
        let is_first = messages.is_empty();
        check(
            block,
            messages.len() as u32 + 1,
            is_first,
            behind.is_empty(),
        )?;
        let mut data = &block[HEADER_LEN..];
        for _ in 0..block[7] {
            let len = short(data, 0).filter(|&len| len >= MESSAGE_HEADER_LEN);
            let split = len.and_then(|len| data.split_at_checked(len));
            let (message, behind) = split.ok_or(SnapshotError::MessageLength)?;
            messages.push(message);
            data = behind;
        }
        if block[7] == 0 || !matches!(data, [] | [0]) {
            return Err(SnapshotError::MessageLength);
        }
        if behind.is_empty() {
            return Ok(messages);
        }
        rest = behind;
    }
}

/// A block's header: version, size, checksum, number and delivery flag.
fn check(block: &[u8], number: u32, is_first: bool, is_last: bool) -> Result<(), SnapshotError> {
    if block.len() > BLOCK_MAX || block.len() % 2 == 1 {
        return Err(SnapshotError::BlockSize);
    }
    if block[0] != VERSION {
        return Err(SnapshotError::Version);
    }
    let (front, behind) = (&block[..CHECKSUM_AT], &block[HEADER_LEN..]);
    let sum: usize = front
        .iter()
        .chain(behind)
        .map(|&byte| usize::from(byte))
        .sum();
    if short(block, CHECKSUM_AT) != Some(sum % 65536) {
        return Err(SnapshotError::Checksum);
    }
    let flag = match (is_first, is_last) {
        (true, true) => 4,
        (true, false) => 1,
        (false, true) => 3,
        (false, false) => 2,
    };
    if array(block, 3).map(u32::from_be_bytes) != Some(number) || block[8] != flag {
        return Err(SnapshotError::OutOfOrder);
    }
    Ok(())
}

/// A whole snapshot.
pub fn snapshot(bytes: &[u8]) -> Result<Snapshot, SnapshotError> {
    let messages = messages(bytes)?;
    let symbol: [u8; SYMBOL_LEN] =
        array(messages[0], MESSAGE_HEADER_LEN).ok_or(SnapshotError::MessageType)?;
    let mut national = None;
    let mut finra = None;
    let mut letters: Vec<LetterQuote> = Vec::new();
    for message in messages {
        let twice = match (&message[2..4], message.len()) {
            (b"RC", CONSOLIDATED_LEN) => national
                .replace([58, 76].map(|at| national_at(message, at)))
                .is_some(),
            (b"RF", FINRA_LEN) => finra
                .replace([17, 34].map(|at| finra_at(message, at)))
                .is_some(),
            (b"RP", PARTICIPANT_LEN) => {
                let quote = letter_quote(message);
                let twice = letters.iter().any(|other| other.letter == quote.letter);
                letters.push(quote);
                twice
            }
            _ => true,
        };
        if twice {
            return Err(SnapshotError::MessageType);
        }
        if array(message, MESSAGE_HEADER_LEN) != Some(symbol) {
            return Err(SnapshotError::OtherSymbol);
        }
    }
    let [national_bid, national_offer] = national.ok_or(SnapshotError::NotConsolidated)?;
    let [finra_bid, finra_offer] = finra.unwrap_or_default();
    Ok(Snapshot {
        symbol: symbol.into(),
        national_bid,
        national_offer,
        finra_bid,
        finra_offer,
        letters,
    })
}

/// Letter, condition, price, size.
fn national_at(message: &[u8], at: usize) -> Option<Entry> {
    let mut entry = [b' '; 16];
    entry[..2].copy_from_slice(&message[at..at + 2]);
    entry[4..].copy_from_slice(&message[at + 2..at + 14]);
    Entry::from_bytes(&entry).map(Entry::into_national)
}

/// Price, size, maker.
fn finra_at(message: &[u8], at: usize) -> Option<Entry> {
    let mut entry = [b' '; 16];
    entry[..4].copy_from_slice(&message[at + 12..at + 16]);
    entry[4..].copy_from_slice(&message[at..at + 12]);
    Entry::from_bytes(&entry)
}

fn letter_quote(message: &[u8]) -> LetterQuote {
    let price = |at| Price(array(message, at).map_or(0, u64::from_be_bytes));
    let size = |at| array(message, at).map_or(0, u32::from_be_bytes);
    LetterQuote {
        letter: message[4],
        condition: message[16],
        bid: price(17),
        bid_size: size(25),
        offer: price(29),
        offer_size: size(37),
    }
}
