//! A subscriber's side of the snapshot feed (T-12), by source document 002 alone: blocks (2.1 to 2.3),
//! message headers (2.4) and the three messages of a symbol (3.3 to 3.5).
//!
//! It takes the messages in any order and a snapshot without FINRA's, and looks at no field that T-12
//! leaves blank.

mod fields;

use std::collections::BTreeSet;

use crate::terms::{BLOCK_MAX, ENTRY_LEN, SYMBOL_LEN};
use fields::Fields;

/// 2.3.1: "Version value is set to 11".
const VERSION: u8 = 11;
/// 2.3: "Total Length 24".
const HEADER_LEN: usize = 24;
/// 2.4: "Total Length 5".
const MESSAGE_HEADER_LEN: usize = 5;
/// None is four spaces and zeros.
const NO_ENTRY: [u8; ENTRY_LEN] = *b"    \0\0\0\0\0\0\0\0\0\0\0\0";

/// What a snapshot tells of a symbol.
#[derive(Clone, PartialEq, Eq, Debug)]
pub struct Snapshot {
    /// Its eleven bytes.
    pub symbol: [u8; SYMBOL_LEN],
    /// National bid and offer, as a publication has them, with spaces behind letter and condition.
    pub national: [[u8; ENTRY_LEN]; 2],
    /// FINRA bid and offer, as a publication has them.
    pub finra: [[u8; ENTRY_LEN]; 2],
    /// The letters' latest quotes, in the order of their messages.
    pub letters: Vec<Latest>,
}

/// A letter's latest quote. Sizes are round lots.
#[derive(Clone, Copy, PartialEq, Eq, Debug)]
pub struct Latest {
    /// The letter.
    pub letter: u8,
    /// The condition.
    pub condition: u8,
    /// Bid price and size.
    pub bid: (u64, u32),
    /// Offer price and size.
    pub offer: (u64, u32),
}

/// Why bytes are no snapshot of a symbol.
#[derive(Clone, Copy, PartialEq, Eq, Debug)]
pub enum Fault {
    /// A block is cut, over 1,000 bytes or of an odd length.
    Size,
    /// Another version than 11.
    Version,
    /// The checksum is not the sum of the other bytes.
    Checksum,
    /// A block's number is not one behind the last message before it.
    Sequence,
    /// The delivery flag is not that of a block at this place.
    Delivery,
    /// The messages don't fill the block, but for a pad byte of zero.
    Messages,
    /// Another message than the three, or one of another length.
    Type,
    /// A message about another symbol.
    Symbol,
    /// No Consolidated message, or a message twice.
    Twice,
}

/// A block taken apart.
#[derive(Clone, PartialEq, Eq, Debug)]
pub struct Block<'a> {
    /// The number of its first message.
    pub sequence: u32,
    /// 1 first, 2 intermediate, 3 last, 4 only block.
    pub delivery_flag: u8,
    /// Its messages, each with its header.
    pub messages: Vec<&'a [u8]>,
    /// All its bytes.
    pub len: usize,
}

/// The blocks of a snapshot, which lie end to end.
pub fn blocks(bytes: &[u8]) -> Result<Vec<Block<'_>>, Fault> {
    let mut blocks = Vec::new();
    let mut rest = bytes;
    while !rest.is_empty() {
        let block = block(rest)?;
        rest = &rest[block.len..];
        blocks.push(block);
    }
    Ok(blocks)
}

/// The block at the front of the bytes.
fn block(bytes: &[u8]) -> Result<Block<'_>, Fault> {
    let mut header = Fields::of(bytes);
    let version = header.byte().ok_or(Fault::Size)?;
    let len = usize::from(header.short().ok_or(Fault::Size)?);
    let sequence = header.integer().ok_or(Fault::Size)?;
    let count = header.byte().ok_or(Fault::Size)?;
    let delivery_flag = header.byte().ok_or(Fault::Size)?;
    // LastSeqNum, TotPubSeqRollover, SIP Block Timestamp
    header.skip(4 + 1 + 8).ok_or(Fault::Size)?;
    let checksum = header.short().ok_or(Fault::Size)?;
    if version != VERSION {
        return Err(Fault::Version);
    }
    if !(HEADER_LEN..=BLOCK_MAX).contains(&len) || len % 2 != 0 {
        return Err(Fault::Size);
    }
    let block = bytes.get(..len).ok_or(Fault::Size)?;
    let sum: u32 = block.iter().map(|&byte| u32::from(byte)).sum();
    let own: u32 = block[22..HEADER_LEN]
        .iter()
        .map(|&byte| u32::from(byte))
        .sum();
    if (sum - own) as u16 != checksum {
        return Err(Fault::Checksum);
    }
    let mut data = &block[HEADER_LEN..];
    let mut messages = Vec::new();
    for _ in 0..count {
        let message_len = Fields::of(data).short().ok_or(Fault::Messages)?;
        if usize::from(message_len) < MESSAGE_HEADER_LEN {
            return Err(Fault::Messages);
        }
        let message = data
            .get(..usize::from(message_len))
            .ok_or(Fault::Messages)?;
        data = &data[message.len()..];
        messages.push(message);
    }
    if messages.is_empty() || !matches!(data, [] | [0]) {
        return Err(Fault::Messages);
    }
    Ok(Block {
        sequence,
        delivery_flag,
        messages,
        len,
    })
}

/// Reads a snapshot back.
pub fn decode(bytes: &[u8]) -> Result<Snapshot, Fault> {
    let blocks = blocks(bytes)?;
    let mut next = 1;
    for (i, block) in blocks.iter().enumerate() {
        if block.sequence != next {
            return Err(Fault::Sequence);
        }
        next += block.messages.len() as u32;
        let expected = match (i, i + 1 == blocks.len()) {
            (0, true) => 4,
            (0, false) => 1,
            (_, true) => 3,
            (_, false) => 2,
        };
        if block.delivery_flag != expected {
            return Err(Fault::Delivery);
        }
    }
    let mut parts = Parts::default();
    for message in blocks.iter().flat_map(|block| &block.messages) {
        parts.take(message)?;
    }
    parts.whole()
}

/// The messages read so far.
#[derive(Default)]
struct Parts {
    symbol: Option<[u8; SYMBOL_LEN]>,
    national: Option<[[u8; ENTRY_LEN]; 2]>,
    finra: Option<[[u8; ENTRY_LEN]; 2]>,
    letters: Vec<Latest>,
    seen: BTreeSet<u8>,
}

impl Parts {
    fn take(&mut self, message: &[u8]) -> Result<(), Fault> {
        let mut fields = Fields::of(message);
        fields.short().ok_or(Fault::Type)?;
        let kind: [u8; 2] = fields.chars().ok_or(Fault::Type)?;
        let participant = fields.byte().ok_or(Fault::Type)?;
        let symbol = fields.chars().ok_or(Fault::Type)?;
        if *self.symbol.get_or_insert(symbol) != symbol {
            return Err(Fault::Symbol);
        }
        let twice = match &kind {
            b"RC" => self
                .national
                .replace(consolidated(&mut fields).ok_or(Fault::Type)?)
                .is_some(),
            b"RF" => self
                .finra
                .replace(finra(&mut fields).ok_or(Fault::Type)?)
                .is_some(),
            b"RP" => {
                let latest = latest(participant, &mut fields).ok_or(Fault::Type)?;
                self.letters.push(latest);
                !self.seen.insert(participant)
            }
            _ => return Err(Fault::Type),
        };
        if !fields.is_at_end() {
            return Err(Fault::Type);
        }
        if twice {
            return Err(Fault::Twice);
        }
        Ok(())
    }

    fn whole(self) -> Result<Snapshot, Fault> {
        let (Some(symbol), Some(national)) = (self.symbol, self.national) else {
            return Err(Fault::Twice);
        };
        Ok(Snapshot {
            symbol,
            national,
            finra: self.finra.unwrap_or([NO_ENTRY; 2]),
            letters: self.letters,
        })
    }
}

/// 3.3, behind the symbol: "National Best Bid Participant ID, Quote Condition, Price, Size" and the
/// offer's.
fn consolidated(fields: &mut Fields) -> Option<[[u8; ENTRY_LEN]; 2]> {
    // Instrument Type; price bands and auction collar; Number of Extensions
    fields.skip(1 + 5 * 8 + 1)?;
    let mut side = || {
        let [letter, condition] = fields.chars()?;
        let worth: [u8; 12] = fields.chars()?;
        // FINRA Best Market Maker ID
        fields.skip(4)?;
        Some(entry([letter, condition, b' ', b' '], worth))
    };
    let entries = [side()?, side()?];
    // National BBO LULD Indicator, Primary Listing Market, Financial Status, Short Sale Restriction,
    // Halt Reason, Reserved
    fields.skip(5 + 3)?;
    Some(entries)
}

/// 3.4, behind the symbol.
fn latest(letter: u8, fields: &mut Fields) -> Option<Latest> {
    let latest = Latest {
        letter,
        condition: fields.byte()?,
        bid: (fields.long()?, fields.integer()?),
        offer: (fields.long()?, fields.integer()?),
    };
    // Retail Interest, Settlement Condition, Market Condition, LULD; indications; Halt Reason
    fields.skip(4 + 2 * 8 + 1)?;
    Some(latest)
}

/// 3.5, behind the symbol: "FINRA Best Bid Quote Condition, Price, Size, Market Maker ID" and the
/// offer's.
fn finra(fields: &mut Fields) -> Option<[[u8; ENTRY_LEN]; 2]> {
    let mut side = || {
        fields.skip(1)?;
        let worth: [u8; 12] = fields.chars()?;
        Some(entry(fields.chars()?, worth))
    };
    let entries = [side()?, side()?];
    // FINRA BBO LULD Indicator; indications; Halt Reason
    fields.skip(1 + 2 * 8 + 1)?;
    Some(entries)
}

/// A publication's entry: name 4, price 8, size 4.
fn entry(name: [u8; 4], worth: [u8; 12]) -> [u8; ENTRY_LEN] {
    let mut entry = [0; ENTRY_LEN];
    entry[..4].copy_from_slice(&name);
    entry[4..].copy_from_slice(&worth);
    entry
}
