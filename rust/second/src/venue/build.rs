//! Building messages and blocks in the layout of source document 000, for tests.

use crate::terms::SYMBOL_LEN;

/// The header of a message (5.0), without its Message Length, which [`block`] sets, and its Message
/// ID, which [`block`] sets too.
#[derive(Clone, Debug)]
pub struct Header {
    /// Category and type.
    pub pair: [u8; 2],
    /// Participant ID.
    pub participant: u8,
    /// Timestamp 1: seconds and nanoseconds.
    pub time: [u32; 2],
    /// Reserved.
    pub reserved: [u8; 4],
    /// Participant Reference Number.
    pub reference: [u8; 8],
}

impl Header {
    /// A header with no reference number.
    pub fn new(pair: &[u8; 2], participant: u8, time: [u32; 2]) -> Header {
        Header {
            pair: *pair,
            participant,
            time,
            reserved: *b"    ",
            reference: [0; 8],
        }
    }
}

/// Price in the field's own unit, and shares.
pub type Shown = (u64, u32);

/// The clear mark and the appendages of a quote.
#[derive(Clone, Debug)]
pub struct Odd {
    /// Clear Prior Odd Lot Quotes.
    pub clear: u8,
    /// The odd-lot bids.
    pub bids: Vec<Shown>,
    /// The odd-lot offers.
    pub offers: Vec<Shown>,
}

impl Odd {
    /// No clear and no appendages.
    pub const IDLE: Odd = Odd {
        clear: b' ',
        bids: Vec::new(),
        offers: Vec::new(),
    };

    fn write(&self, message: &mut Vec<u8>, price_len: usize) {
        message.extend([self.clear, self.bids.len() as u8, self.offers.len() as u8]);
        for &(price, shares) in self.bids.iter().chain(&self.offers) {
            message.extend(&price.to_be_bytes()[8 - price_len..]);
            message.push(shares as u8);
        }
    }
}

/// What only the long round-lot quote has.
#[derive(Clone, Debug)]
pub struct Own {
    /// Quote Condition.
    pub condition: u8,
    /// Retail Interest Indicator.
    pub retail: u8,
    /// Settlement Condition.
    pub settlement: u8,
    /// Market Condition.
    pub market: u8,
    /// FINRA Market Maker ID.
    pub maker: [u8; 4],
    /// FINRA BBO Indicator.
    pub indicator: u8,
    /// Timestamp 2.
    pub second_time: [u32; 2],
}

impl Own {
    /// A condition on a normal market, everything else not applicable.
    pub fn new(condition: u8) -> Own {
        Own {
            condition,
            retail: b' ',
            settlement: b' ',
            market: b' ',
            maker: *b"    ",
            indicator: b' ',
            second_time: [0, 0],
        }
    }
}

fn write_header(header: &Header) -> Vec<u8> {
    let mut message = vec![0, 0];
    message.extend(header.pair);
    message.push(header.participant);
    for part in header.time {
        message.extend(part.to_be_bytes());
    }
    message.push(0);
    message.extend(header.reserved);
    message.extend(header.reference);
    message
}

/// A message of another type: a header, and any body.
pub fn other(header: &Header, body: &[u8]) -> Vec<u8> {
    let mut message = write_header(header);
    message.extend(body);
    message
}

/// Q P.
pub fn round_short(header: &Header, symbol: [u8; 5], sides: [Shown; 2], odd: &Odd) -> Vec<u8> {
    let mut message = write_header(header);
    message.extend(symbol);
    for (price, shares) in sides {
        message.extend((price as u16).to_be_bytes());
        message.extend((shares as u16).to_be_bytes());
    }
    odd.write(&mut message, 2);
    message
}

/// Q K.
pub fn round_long(
    header: &Header,
    symbol: [u8; SYMBOL_LEN],
    sides: [Shown; 2],
    own: &Own,
    odd: &Odd,
) -> Vec<u8> {
    let mut message = write_header(header);
    message.extend(symbol);
    message.push(own.condition);
    for (price, shares) in sides {
        message.extend(price.to_be_bytes());
        message.extend(shares.to_be_bytes());
    }
    message.extend([own.retail, own.settlement, own.market]);
    message.extend(own.maker);
    message.push(own.indicator);
    for part in own.second_time {
        message.extend(part.to_be_bytes());
    }
    odd.write(&mut message, 8);
    message
}

/// Q R.
pub fn odd_short(header: &Header, symbol: [u8; 5], odd: &Odd) -> Vec<u8> {
    let mut message = write_header(header);
    message.extend(symbol);
    odd.write(&mut message, 2);
    message
}

/// Q M.
pub fn odd_long(header: &Header, symbol: [u8; SYMBOL_LEN], odd: &Odd) -> Vec<u8> {
    let mut message = write_header(header);
    message.extend(symbol);
    odd.write(&mut message, 8);
    message
}

/// A block of these messages, in which each message's length and ID are set, with its pad byte.
pub fn block(sequence: u32, messages: &[Vec<u8>]) -> Vec<u8> {
    let mut block = vec![0, 0, 0];
    block.extend(sequence.to_be_bytes());
    block.push(messages.len() as u8);
    block.extend([0; 2]);
    for (i, message) in messages.iter().enumerate() {
        let start = block.len();
        block.extend(message);
        let len = message.len() as u16;
        block[start..start + 2].copy_from_slice(&len.to_be_bytes());
        block[start + 13] = i as u8 + 1;
    }
    if block.len() % 2 == 1 {
        block.push(0);
    }
    seal(&mut block);
    block
}

/// Sets the block size and the checksum of at least ten bytes.
pub fn seal(block: &mut [u8]) {
    let size = block.len() as u16;
    block[1..3].copy_from_slice(&size.to_be_bytes());
    crate::build::seal_checksum(block);
}
