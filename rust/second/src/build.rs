//! Building messages and blocks in the layout of document 01, for lists of calls and tests.

use crate::terms::SYMBOL_LEN;

/// An eleven-byte symbol: the text and spaces to the end.
pub fn symbol(text: &str) -> [u8; SYMBOL_LEN] {
    padded(text)
}

/// A four-byte maker: the text and spaces to the end.
pub fn maker(text: &str) -> [u8; 4] {
    padded(text)
}

fn padded<const N: usize>(text: &str) -> [u8; N] {
    let mut bytes = [b' '; N];
    bytes[..text.len()].copy_from_slice(text.as_bytes());
    bytes
}

/// Price, and size in round lots (of an odd item: in shares).
pub type Shown = (u64, u32);

/// An odd part.
#[derive(Clone, Debug)]
pub struct Odd {
    /// The clear mark.
    pub clear: u8,
    /// The odd bids.
    pub bids: Vec<Shown>,
    /// The odd offers.
    pub offers: Vec<Shown>,
}

impl Odd {
    /// No clear and no items.
    pub const IDLE: Odd = Odd {
        clear: b' ',
        bids: Vec::new(),
        offers: Vec::new(),
    };

    fn write(&self, message: &mut Vec<u8>, zeros: usize) {
        message.extend([self.clear, self.bids.len() as u8, self.offers.len() as u8]);
        message.extend(vec![0; zeros]);
        for &item in self.bids.iter().chain(&self.offers) {
            write_shown(message, item);
        }
    }
}

/// The round part of Q K, or what Q U has before its maker.
#[derive(Clone, Debug)]
pub struct Round {
    /// The letter of the header.
    pub letter: u8,
    /// The timestamp of the header.
    pub time: u64,
    /// The symbol that the message names.
    pub symbol: [u8; SYMBOL_LEN],
    /// The condition of the quote.
    pub condition: u8,
    /// The bid.
    pub bid: Shown,
    /// The offer.
    pub offer: Shown,
}

impl Round {
    /// A regular quote: condition R, which admits both sides.
    pub fn regular(letter: u8, time: u64, symbol: &str, bid: Shown, offer: Shown) -> Round {
        Round {
            letter,
            time,
            symbol: self::symbol(symbol),
            condition: b'R',
            bid,
            offer,
        }
    }

    fn write(&self, message_type: u8) -> Vec<u8> {
        let mut message = header(b'Q', message_type, self.letter, self.time);
        message.extend(self.symbol);
        message.push(self.condition);
        write_shown(&mut message, self.bid);
        write_shown(&mut message, self.offer);
        message
    }
}

fn write_shown(message: &mut Vec<u8>, (price, size): Shown) {
    message.extend(price.to_be_bytes());
    message.extend(size.to_be_bytes());
}

/// The 20 bytes that every message begins with; alone they are C I, C T, C C or C O.
pub fn header(category: u8, message_type: u8, letter: u8, time: u64) -> Vec<u8> {
    let mut message = vec![category, message_type, letter, 0];
    message.extend(time.to_be_bytes());
    message.extend([0; 8]);
    message
}

/// C 5: the header and hex 20 to 7E in order.
pub fn test(letter: u8, time: u64) -> Vec<u8> {
    let mut message = header(b'C', b'5', letter, time);
    message.extend(0x20..=0x7E);
    message
}

/// Q K.
pub fn round_lot(round: &Round, odd: &Odd) -> Vec<u8> {
    let mut message = round.write(b'K');
    odd.write(&mut message, 1);
    message
}

/// Q M.
pub fn odd_lot(letter: u8, time: u64, symbol: [u8; SYMBOL_LEN], odd: &Odd) -> Vec<u8> {
    odd_alone(b'M', letter, time, symbol, odd)
}

/// Q T, FINRA's odd lot: it belongs on a line of D.
pub fn finra_odd_lot(letter: u8, time: u64, symbol: [u8; SYMBOL_LEN], odd: &Odd) -> Vec<u8> {
    odd_alone(b'T', letter, time, symbol, odd)
}

/// An odd part behind a header and a symbol.
fn odd_alone(
    message_type: u8,
    letter: u8,
    time: u64,
    symbol: [u8; SYMBOL_LEN],
    odd: &Odd,
) -> Vec<u8> {
    let mut message = header(b'Q', message_type, letter, time);
    message.extend(symbol);
    odd.write(&mut message, 2);
    message
}

/// Q U.
pub fn maker_quote(round: &Round, maker: [u8; 4]) -> Vec<u8> {
    let mut message = round.write(b'U');
    message.extend(maker);
    message
}

/// T S: a symbol's trading status, H for halted or T for trading.
pub fn trading_status(letter: u8, time: u64, symbol: [u8; SYMBOL_LEN], status: u8) -> Vec<u8> {
    let mut message = header(b'T', b'S', letter, time);
    message.extend(symbol);
    message.push(status);
    message
}

/// A block that carries these messages under a sequence number. Its length field and checksum are
/// right whenever its length fits the field.
pub fn block(sequence: u32, messages: &[Vec<u8>]) -> Vec<u8> {
    let mut block = vec![1, messages.len() as u8, 0, 0];
    block.extend(sequence.to_be_bytes());
    block.extend([0; 2]);
    let mut offset = 10 + 2 * messages.len();
    for message in messages {
        block.extend((offset as u16).to_be_bytes());
        offset += message.len();
    }
    for message in messages {
        block.extend(message);
    }
    seal(&mut block);
    block
}

/// Sets the length field and the checksum of at least ten bytes.
pub fn seal(block: &mut [u8]) {
    let len = block.len() as u16;
    block[2..4].copy_from_slice(&len.to_be_bytes());
    seal_checksum(block);
}

/// Sets the checksum alone.
pub fn seal_checksum(block: &mut [u8]) {
    block[8..10].fill(0);
    let sum = block
        .iter()
        .fold(0u16, |sum, &byte| sum.wrapping_add(u16::from(byte)));
    block[8..10].copy_from_slice(&sum.to_be_bytes());
}

/// The sequence number and messages of a block, if its offsets lie in order within it.
pub fn split(block: &[u8]) -> Option<(u32, Vec<Vec<u8>>)> {
    let count = usize::from(*block.get(1)?);
    let sequence = u32::from_be_bytes(block.get(4..8)?.try_into().ok()?);
    let table = block.get(10..10 + 2 * count)?;
    let mut bounds: Vec<usize> = table
        .chunks_exact(2)
        .map(|offset| usize::from(u16::from_be_bytes([offset[0], offset[1]])))
        .collect();
    bounds.push(block.len());
    let messages = bounds
        .windows(2)
        .map(|bound| block.get(bound[0]..bound[1]).map(<[u8]>::to_vec))
        .collect::<Option<_>>()?;
    Some((sequence, messages))
}
